"""Clocks of services that a case moves, by a few lines of C that are preloaded into a service."""
import functools
import os
import pathlib
import subprocess
import tempfile

SOURCE = pathlib.Path(__file__).resolve().parent / "moved_clock.c"


@functools.lru_cache(maxsize=None)
def library():
    """What is preloaded, which is built once a run."""
    built = pathlib.Path(tempfile.mkdtemp(prefix="migctl-clock-")) / "moved_clock.so"
    subprocess.run(["cc", "-O1", "-shared", "-fPIC", "-o", built, SOURCE, "-ldl"], check=True)
    return built


class MovedClock:
    """The machine's time, moved by some seconds."""

    def __init__(self, file, seconds=0):
        self.file = file
        self.move(seconds)

    def move(self, seconds):
        """From now on it is so many seconds ahead of the machine's, or behind."""
        self.say(f"{seconds}")

    def fail(self):
        """From now on it gives no reading."""
        self.say("none")

    def fail_all(self):
        """From now on the clock that never goes back gives none either."""
        self.say("all")

    def say(self, text):
        """Tells the services, which never see a part of it."""
        new = self.file.with_suffix(".new")
        new.write_text(f"{text}\n", encoding="ascii")
        os.replace(new, self.file)

    def words(self):
        """What stands before the words of a program that has this clock."""
        return ["env", f"LD_PRELOAD={library()}", f"MOVED_BY={self.file}"]
