"""Runs a program with one request for memory refused: what it left, and whether the refusal was met."""
import os
import pathlib
import subprocess

HERE = pathlib.Path(__file__).resolve().parent
SECONDS = 60  # after which a run counts as one that hangs


class NotBuilt(Exception):
    """What refuses memory couldn't be built: why."""


class Ran:
    """What a run left: its status, output and faults, and whether memory was refused to it. A run that was stopped by a signal
    has a negative status, one that hung has none."""

    def __init__(self, status, stdout, stderr, refused):
        self.status = status
        self.stdout = stdout
        self.stderr = stderr
        self.refused = refused

    def said(self):
        """What it left, as a text."""
        how = "it hung" if self.status is None else f"status {self.status}"
        return f"{how}, output {self.stdout[-200:]!r}, faults {self.stderr[-400:]!r}"


class Refuser:
    """What refuses memory, built in this folder."""

    def __init__(self, folder):
        self.library = pathlib.Path(folder) / "refuse.so"
        try:
            built = subprocess.run(
                ["cc", "-shared", "-fPIC", "-O2", "-o", self.library, HERE / "refuse.c"], capture_output=True, text=True
            )
        except FileNotFoundError:
            raise NotBuilt("there is no C compiler (cc) on the path") from None
        if built.returncode != 0:
            raise NotBuilt(built.stderr)

    def run(self, turn, subject):
        """Runs a subject with its request for memory of this number refused, counted from 1; none at 0."""
        told, tells = os.pipe()
        try:
            settings = {"LD_PRELOAD": str(self.library), "REFUSED_TURN": str(turn), "REFUSED_FILE": str(tells)}
            if subject.marked:
                settings["REFUSED_MARKED"] = "1"
            status, stdout, stderr = run_with(settings, subject.words, subject.folder, subject.stdin, tells)
            os.set_blocking(told, False)
            try:
                refused = os.read(told, 1) == b"!"
            except BlockingIOError:
                refused = False
        finally:
            os.close(told)
            os.close(tells)
        return Ran(status, stdout, stderr, refused)


def run_with(settings, words, folder, stdin, kept):
    """Runs a program with these variables and this open file beside its own, and gives what it left."""
    how = {"cwd": folder, "env": {**os.environ, **settings}, "pass_fds": (kept,), "timeout": SECONDS}
    try:
        ran = subprocess.run(words, input=stdin, capture_output=True, **how)
    except subprocess.TimeoutExpired as late:
        return None, late.stdout or b"", late.stderr or b""
    return ran.returncode, ran.stdout, ran.stderr
