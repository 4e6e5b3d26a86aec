"""Memory that is refused to a proxy at a moment that a case says, by a few lines of C that are preloaded into it."""
import functools
import os
import pathlib
import signal
import subprocess
import tempfile
import time

from helping import is_proved, wait_until

SOURCE = pathlib.Path(__file__).resolve().parent / "no_memory.c"
MOST_MIB = 400  # of an allocator that looks for misuse, and beyond which it refuses
SETTLING = 0.5  # seconds within which that one sees what is taken


@functools.lru_cache(maxsize=None)
def library():
    """What is preloaded, which is built once a run."""
    built = pathlib.Path(tempfile.mkdtemp(prefix="driver-memory-")) / "no_memory.so"
    subprocess.run(["cc", "-O1", "-shared", "-fPIC", "-o", built, SOURCE], check=True)
    return built


def words():
    """What stands before the words of a program to which memory may be refused."""
    found = ["env", f"LD_PRELOAD={library()}"]
    if not is_proved():
        options = f"{os.environ['ASAN_OPTIONS']}:soft_rss_limit_mb={MOST_MIB}:log_path={library()}.log"
        found += ["TAKES_MEMORY=1", f"ASAN_OPTIONS={options}"]
    return found


def refuse(proxy):
    """From now on a proxy gets no memory."""
    os.kill(proxy.child.pid, signal.SIGUSR1)
    if not is_proved():
        wait_until("memory that is taken", lambda: proxy.status("VmRSS") > MOST_MIB * 1024)
    time.sleep(SETTLING)


def grant(proxy):
    """From now on it gets memory again."""
    os.kill(proxy.child.pid, signal.SIGUSR2)
    if not is_proved():
        wait_until("memory that is given back", lambda: proxy.status("VmRSS") < MOST_MIB * 1024)
    time.sleep(SETTLING)
