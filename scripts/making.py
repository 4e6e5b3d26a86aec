"""What making a program takes, checked or proved: the sum of its sources, one call at a time, lines of progress and of faults."""
import contextlib
import fcntl
import os
import pathlib
import shutil
import signal
import subprocess
import sys
import time

ROOT = pathlib.Path(__file__).resolve().parent.parent
OUT = ROOT / "crates/migctl/out"
TOOLCHAIN = ROOT / "scripts/toolchain"  # its command, which is quicker so
REDRAWN_AFTER = 0.2  # seconds, on a terminal
GIGABYTE = 1_000_000_000


class NotMade(Exception):
    """The program couldn't be made: why, in one line, and what the toolchain said of it, if it did."""

    def __init__(self, why, said=""):
        super().__init__(why)
        self.said = said


def say(line):
    """Says a line on standard error."""
    print(f"migctl: {line}", file=sys.stderr, flush=True)


def sources_sum():
    """The sum of what the program is made of, as it is now."""
    return printed(ROOT / "scripts/sources").strip()


def mark_of(program, sources):
    """What scripts/prove writes down of the proved program of these sources, and ./migctl reads: their sum, its size and its time."""
    stands = program.stat()
    seconds, parts = divmod(stands.st_mtime_ns, 10**9)
    return f"{sources} {stands.st_size} {seconds}.{parts:09d}\n"


def printed(*words):
    """What a command prints."""
    ran = subprocess.run(words, stdout=subprocess.PIPE, text=True)
    if ran.returncode != 0:
        raise NotMade(f"{words[0]} ended with status {ran.returncode}")
    return ran.stdout


def want_toolchain():
    """Refuses where there is no toolchain."""
    if shutil.which("rt") is None:
        raise NotMade("the toolchain isn't there: put Rattle's rt on the path (README.md)")


def want_memory(least, what):
    """Refuses where so many bytes of memory aren't free."""
    free = free_memory()
    if free < least:
        raise NotMade(f"{what} needs {gigabytes(least)} of free memory, and {gigabytes(free)} are free")


def want_disk(least, folder, what):
    """Refuses where so many bytes can't be written in a folder."""
    free = shutil.disk_usage(folder).free
    if free < least:
        raise NotMade(f"{what} needs {gigabytes(least)} of disk in {folder}, and {gigabytes(free)} are free")


def free_memory():
    """The memory that is free, in bytes."""
    for line in pathlib.Path("/proc/meminfo").read_text(encoding="ascii").splitlines():
        if line.startswith("MemAvailable:"):
            return int(line.split()[1]) * 1024
    raise NotMade("/proc/meminfo doesn't say how much memory is free")


def gigabytes(count):
    """A count of bytes, in words."""
    return f"{count / GIGABYTE:.1f} GB"


@contextlib.contextmanager
def turn(folder, who):
    """Waits while somebody else has the lock of a folder, and says who that is. It gives whether it had to wait."""
    lock = os.open(folder, os.O_RDONLY)
    try:
        has_waited = False
        try:
            fcntl.flock(lock, fcntl.LOCK_EX | fcntl.LOCK_NB)
        except BlockingIOError:
            has_waited = True
            say(f"{who}: waiting for it")
            fcntl.flock(lock, fcntl.LOCK_EX)
        yield has_waited
    finally:
        os.close(lock)


class Progress:
    """A line on standard error that says how far the work is. A terminal has it redrawn; elsewhere it is told again after so many
    seconds, if at all."""

    def __init__(self, again_after=None):
        self.redraws = sys.stderr.isatty()
        self.again_after = again_after
        self.begun = time.monotonic()
        self.next = 0.0  # the time of the next line

    def seconds(self):
        """How long the work takes so far."""
        return time.monotonic() - self.begun

    def is_due(self):
        """Whether it is time for a line."""
        return time.monotonic() >= self.next

    def tell(self, on_terminal, elsewhere):
        """Says one of these two lines."""
        if self.redraws:
            width = os.get_terminal_size(sys.stderr.fileno()).columns or 80
            print(f"\r{f'migctl: {on_terminal}'[: width - 1]}\033[K", end="", file=sys.stderr, flush=True)
            self.next = time.monotonic() + REDRAWN_AFTER
        else:
            say(elsewhere)
            self.next = time.monotonic() + (self.again_after or float("inf"))

    def clear(self):
        """Leaves nothing of the line on a terminal."""
        if self.redraws:
            print("\r\033[K", end="", file=sys.stderr, flush=True)


def end_by_signals():
    """Has a signal that ends the script end it by way of what ends all that was started."""
    for number in (signal.SIGINT, signal.SIGTERM, signal.SIGHUP):
        signal.signal(number, lambda number, _: sys.exit(128 + number))


def run_making(call):
    """Runs a call that makes a program, and gives the status: 1 where it couldn't, which it says."""
    end_by_signals()
    try:
        return call()
    except NotMade as why:
        sys.stderr.write(why.said)
        say(why)
    except OSError as fault:
        say(f"{fault.filename or 'a file'}: {fault.strerror}")
    return 1
