"""Parts of a run of tests, side by side: each is a command of its own, with its time and with counts of what passed and failed."""
import os
import pathlib
import re
import shutil
import signal
import subprocess
import sys
import tempfile
import time

COUNTS = re.compile(r"\b(\d+) passed[,;] (\d+) failed\b")
LEFT_OUT = re.compile(r"^left out, .*: \d+$", re.MULTILINE)
SHOWN = 20_000  # characters of what a part that failed said, from its end
LIMIT = 1800  # seconds after which a part hangs
PATIENCE = 20  # seconds in which a part that is told to end has to
AFTER = 0.1  # seconds after which is looked again at what runs


class Part:
    """A command that tests something.

    It runs in its folder, beside others unless it is sensitive to time and runs alone. One that counts ends in a line that says how
    many passed and failed; any other is one test. It needs these programs on the path, and it may play the program that another
    part gives.
    """

    def __init__(self, name, words, folder, counts=True, alone=False, plays=False, needs=()):
        self.name = name
        self.words = [os.fspath(word) for word in words]
        self.folder = folder
        self.counts = counts
        self.alone = alone
        self.plays = plays
        self.needs = needs


class Outcome:
    """What came of a part: how many passed and failed, the seconds that it took, a note for its line, and what it said."""

    def __init__(self, part, passed, failed, seconds=0.0, note="", said=""):
        self.part = part
        self.passed = passed
        self.failed = failed
        self.seconds = seconds
        self.note = note
        self.said = said

    def text(self):
        """The line of the part, and above it what it said if it failed."""
        said = self.said[-SHOWN:].rstrip("\n") + "\n" if self.failed and self.said else ""
        note = f"; {self.note}" if self.note else ""
        return f"{said}{self.part.name}: {self.passed} passed, {self.failed} failed, {self.seconds:.0f} s{note}"


class Running:
    """A part that runs. What it says goes to a file."""

    def __init__(self, part, home, environment):
        self.part = part
        self.file = pathlib.Path(home) / re.sub(r"\W", "-", part.name)
        self.begun = time.monotonic()
        self.hangs = False
        with open(self.file, "wb") as said:
            self.child = subprocess.Popen(
                part.words,
                cwd=part.folder,
                env={**os.environ, **environment},
                stdin=subprocess.DEVNULL,
                stdout=said,
                stderr=said,
                start_new_session=True,
            )

    def seconds(self):
        """How long it takes so far."""
        return time.monotonic() - self.begun

    def has_ended(self):
        """Whether it has ended. One that hangs is ended."""
        if self.child.poll() is None and self.seconds() > LIMIT:
            self.hangs = True
            self.tell_to_end(signal.SIGTERM)
            self.end()
        return self.child.poll() is not None

    def outcome(self):
        """What came of it, once it has ended."""
        said = self.file.read_text(encoding="utf-8", errors="replace")
        passed, failed, note = counted(self.part, self.child.returncode, said)
        notes = [f"it hadn't ended after {LIMIT} s" if self.hangs else note, *LEFT_OUT.findall(said)]
        return Outcome(self.part, passed, max(failed, self.hangs), self.seconds(), "; ".join(filter(None, notes)), said)

    def tell_to_end(self, number):
        """Sends a signal to it and to all of its group that runs."""
        try:
            os.killpg(self.child.pid, number)
        except ProcessLookupError:
            pass

    def end(self):
        """Waits for it once it was told to end, and kills it where it doesn't."""
        try:
            self.child.wait(PATIENCE)
        except subprocess.TimeoutExpired:
            self.tell_to_end(signal.SIGKILL)
            self.child.wait()


def counted(part, status, said):
    """How many tests of a part passed and failed, by its status and by what it said, and a note where that is odd."""
    if not part.counts:
        return int(status == 0), int(status != 0), ""
    found = COUNTS.findall(said)
    if not found:
        return 0, 1, f"status {status}, and it counts nothing"
    passed, failed = map(int, found[-1])
    if status != 0 and failed == 0:
        return passed, 1, f"status {status}"
    if passed + failed == 0:
        return 0, 1, "it tested nothing"
    return passed, failed, ""


class Run:
    """A run of parts. In a home of its own lies what they write. In the end, also where a signal ends the run, all that runs is
    ended, and that home is removed."""

    def __init__(self, parts, places, giver):
        self.waiting = list(parts)
        self.places = places  # parts that may run side by side
        self.giver = giver  # the part that gives the program
        self.program = None
        self.running = []
        self.signal = None  # that is to end the run

    def __enter__(self):
        for number in (signal.SIGINT, signal.SIGTERM, signal.SIGHUP):
            signal.signal(number, self.note_signal)
        self.home = tempfile.mkdtemp(prefix="migctl-quick-")
        return self

    def __exit__(self, *_):
        for it in self.running:
            it.tell_to_end(signal.SIGTERM)
        for it in self.running:
            it.end()
        shutil.rmtree(self.home, ignore_errors=True)

    def note_signal(self, number, _frame):
        """Notes that a signal came, so that it breaks nothing off at a moment when a part has begun and isn't known yet."""
        self.signal = number

    def outcomes(self):
        """Runs all parts, and gives what came of each as soon as it has ended."""
        while self.waiting or self.running:
            yield from self.begin_some()
            time.sleep(AFTER)
            if self.signal:
                sys.exit(128 + self.signal)
            for it in [it for it in self.running if it.has_ended()]:
                self.running.remove(it)
                outcome = it.outcome()
                if it.part is self.giver:
                    self.take_program(outcome)
                yield outcome

    def begin_some(self):
        """Begins what can begin now, in order. What came of a part is given at once where it can't run here."""
        for part in list(self.waiting):
            why = self.hindrance(part)
            if not why and not self.has_place(part):
                continue
            self.waiting.remove(part)
            try:
                if not why:
                    self.running.append(Running(part, self.home, self.environment(part)))
            except OSError as error:
                why = str(error)
            if why:
                yield Outcome(part, 0, 1, note=f"it can't run here: {why}")

    def hindrance(self, part):
        """Why a part can't run here, as far as it is known yet."""
        missing = [name for name in part.needs if shutil.which(name) is None]
        if missing:
            return f"{' and '.join(missing)} isn't there"
        if part.plays and not self.is_to_come(self.giver) and self.program is None:
            return f"the {self.giver.name} isn't there"
        return ""

    def is_to_come(self, part):
        """Whether a part hasn't ended yet."""
        return part in self.waiting or part in [it.part for it in self.running]

    def has_place(self, part):
        """Whether a part can begin beside what runs."""
        if part.plays and self.program is None or any(it.part.alone for it in self.running):
            return False
        if part.alone:
            return not self.running and all(it.alone for it in self.waiting)
        return len(self.running) < self.places

    def environment(self, part):
        """What a part finds in its environment: a folder for what it writes and, where it plays the program, that."""
        found = {"TMPDIR": os.fspath(self.home), "PYTHONDONTWRITEBYTECODE": "1"}
        return {**found, "MIGCTL": self.program, "MIGCTL_UNPROVED": "1"} if part.plays else found

    def take_program(self, outcome):
        """The program is named in the last line of what its part said."""
        lines = outcome.said.splitlines()
        if not outcome.failed and lines and os.access(lines[-1], os.X_OK):
            self.program = os.path.abspath(lines[-1])
        elif not outcome.failed:
            outcome.passed, outcome.failed, outcome.note = 0, 1, "it names no program"
