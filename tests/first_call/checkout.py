"""A checkout of a few small crates with the scripts under test, and a fake toolchain on the path."""
import os
import pathlib
import pty
import re
import shutil
import signal
import subprocess
import sys
import tempfile
import time

HERE = pathlib.Path(__file__).resolve().parent
ROOT = HERE.parent.parent
COPIED = (
    "migctl", "scripts/sources", "scripts/checked", "scripts/prove", "scripts/making.py", "scripts/lanes.py", "scripts/toolchain",
    "tests/program.py", "tests/live/building.py", "tests/live/ports.py", "examples/fleet.json",
)
# mr_left and mr_right stand on mr_low, mr_top on both; mr_side stands alone. The program has no use for mr_other.
CRATES = """mr_low: thiserror
mr_side: itoa
mr_left may_wait=1: mr_low
mr_right: mr_low
mr_other: mr_low
mr_top: mr_left mr_right
migctl: mr_top mr_side
"""
LIBRARIES = ("mr_low", "mr_side", "mr_left", "mr_right", "mr_top")
TIMES = "# seconds\nmr_low 10\nmr_side 20\nmr_left 10\nmr_right 40\nmr_top 10\nmigctl 10\n"
CHECKED = "migctl: this is the checked build, which isn't proved and is slow: ./migctl prove makes the proved one\n"
PATIENCE = 60  # seconds in which anything has to have happened


class Wrong(Exception):
    """What isn't as it should be."""


def is_equal(found, wanted, what):
    """Has what was found be what is wanted."""
    if found != wanted:
        raise Wrong(f"{what}: {found!r} in place of {wanted!r}")


def matches(found, pattern, what):
    """Has the whole of what was found match."""
    if not re.fullmatch(pattern, found, re.DOTALL):
        raise Wrong(f"{what}: {found!r}")


def comes_true(question, what):
    """Waits until something holds."""
    until = time.monotonic() + PATIENCE
    while not question():
        if time.monotonic() > until:
            raise Wrong(f"{what} within {PATIENCE} seconds")
        time.sleep(0.02)


class Checkout:
    """The checkout, in a folder of its own that is removed in the end."""

    def __enter__(self):
        self.home = pathlib.Path(tempfile.mkdtemp(prefix="migctl-first-call-"))
        self.root, self.fake, self.temporary = (self.home / name for name in ("checkout", "fake", "temporary"))
        for folder in (self.root / ".git", self.fake, self.temporary, self.home / "bin"):
            folder.mkdir(parents=True)
        # (by a process of their own: what this one has open for writing can't be run while another thread starts a child)
        subprocess.run(["cp", "--parents", *COPIED, self.root], cwd=ROOT, check=True)
        subprocess.run(["cp", HERE / "rt", self.home / "bin/rt"], check=True)
        self.write("crates.txt", CRATES)
        self.write("scripts/prove-times.txt", TIMES)
        for number, line in enumerate(CRATES.splitlines()):
            self.write(f"{self.source(line.partition(':')[0].split()[0])}", f"// text {number}\n")
        self.play("version", "a fake kit\n")
        self.play("calls", "")
        self.children = []
        return self

    def __exit__(self, *_):
        for child in self.children:
            if child.poll() is None:
                child.kill()
                child.wait()
        for number in self.processes():
            os.kill(number, signal.SIGKILL)
        shutil.rmtree(self.home)

    def source(self, name):
        """The one source of a crate, as the checkout names it."""
        return f"crates/{name}/src/{'main' if name == 'migctl' else 'lib'}.rt"

    def write(self, name, text):
        """Writes a file of the checkout."""
        (self.root / name).parent.mkdir(parents=True, exist_ok=True)
        (self.root / name).write_text(text, encoding="utf-8")

    def change(self, name, old, new):
        """Changes one place of a file of the checkout."""
        text = (self.root / name).read_text(encoding="utf-8")
        is_equal(text.count(old), 1, f"{old} in {name}")
        self.write(name, text.replace(old, new))

    def play(self, name, text):
        """Says how the toolchain behaves."""
        (self.fake / name).write_text(text, encoding="utf-8")

    def calls(self):
        """What the toolchain was called for so far, but for what a call adds: the jobs of a library."""
        return [" ".join(line.split()[:2]) for line in self.lines()]

    def lines(self):
        """What the toolchain was called for so far."""
        return (self.fake / "calls").read_text(encoding="utf-8").splitlines()

    def environment(self, more):
        """What commands find in their environment."""
        path = f"{self.home / 'bin'}:{os.path.dirname(os.path.realpath(sys.executable))}:{os.environ['PATH']}"
        own = {"FAKE": str(self.fake), "TMPDIR": str(self.temporary), "PATH": path}
        base = {name: value for name, value in os.environ.items() if not name.startswith(("MIGCTL", "MALLOC"))}
        return {**base, **own, **more}

    def start(self, *words, stderr=subprocess.PIPE, **more):
        """Starts a command of the checkout, in a group of its own."""
        how = {"stdin": subprocess.PIPE, "stdout": subprocess.PIPE, "stderr": stderr, "text": True, "start_new_session": True}
        self.children.append(subprocess.Popen([self.root / words[0], *words[1:]], env=self.environment(more), cwd=self.home, **how))
        return self.children[-1]

    def run(self, *words, given="", **more):
        """Runs a command of the checkout; its status, its output, and what it said on standard error."""
        child = self.start(*words, **more)
        output, said = child.communicate(given, timeout=PATIENCE)
        return child.returncode, output, said

    def on_terminal(self, *words):
        """Runs a command whose standard error is a terminal; its status and what that was sent."""
        ours, theirs = pty.openpty()
        child = self.start(*words, stderr=theirs)
        os.close(theirs)
        said = b""
        try:
            while piece := os.read(ours, 65536):
                said += piece
        except OSError:
            pass  # the other end is closed
        os.close(ours)
        child.communicate(timeout=PATIENCE)
        return child.returncode, said.decode()

    def processes(self):
        """The processes that run in the checkout's home, or of a program there."""
        found = []
        for folder in pathlib.Path("/proc").glob("[0-9]*"):
            try:
                words = (folder / "cmdline").read_bytes() + os.fsencode(os.readlink(folder / "cwd"))
            except OSError:
                continue
            if os.fsencode(self.home) in words:
                found.append(int(folder.name))
        return found

    def nothing_runs(self):
        """Has everything have ended that a call started."""
        comes_true(lambda: not self.processes(), "what a call started didn't end")

    def kept(self):
        """The checked programs that are kept, and whatever else lies there."""
        folder = self.root / "crates/migctl/out/checked"
        return sorted(it.name for it in folder.iterdir()) if folder.is_dir() else []
