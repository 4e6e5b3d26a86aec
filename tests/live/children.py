"""The programs that cases start, each in a group of its own, which is ended by its id whatever happens."""
import os
import pathlib
import signal
import subprocess
import sys
import threading

KEEPER = pathlib.Path(__file__).resolve().parent / "keeper.py"


class Closed(Exception):
    """The run is being ended, so nothing more is started."""


class Children:
    """The programs that were started and haven't been ended yet. Many threads may use it."""

    def __init__(self):
        self.lock = threading.Lock()
        self.running = {}
        self.closed = False
        self.keeper = None

    def start(self, words, **how):
        """Starts a program."""
        with self.lock:
            if self.closed:
                raise Closed()
            if self.keeper is None:
                self.keeper = subprocess.Popen(
                    [sys.executable, str(KEEPER)], stdin=subprocess.PIPE, text=True, start_new_session=True
                )
            child = subprocess.Popen(words, start_new_session=True, **how)
            self.running[child.pid] = child
            self.tell(f"+{child.pid}")
            return child

    def end(self, child):
        """Ends a program, where it hasn't ended by itself, and gives its status."""
        with self.lock:
            return self.end_one(child)

    def end_all(self):
        """Ends all that runs, and starts nothing from then on."""
        with self.lock:
            self.closed = True
            for child in list(self.running.values()):
                self.end_one(child)
            if self.keeper is not None:
                self.keeper.stdin.close()
                self.keeper.wait()
                self.keeper = None

    def end_one(self, child):
        """Ends a program under the lock."""
        if child.poll() is None:
            os.killpg(child.pid, signal.SIGKILL)
        status = child.wait()
        if self.running.pop(child.pid, None) is not None:
            self.tell(f"-{child.pid}")
        return status

    def tell(self, line):
        """Tells the keeper, which may have been killed by hand."""
        try:
            print(line, file=self.keeper.stdin, flush=True)
        except OSError:
            pass


CHILDREN = Children()
