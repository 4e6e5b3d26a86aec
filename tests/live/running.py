"""The cases, and how they are run."""
import queue
import threading
import traceback

import moments
from children import CHILDREN
from wanted import Wrong

SIDE_BY_SIDE = 5  # cases that mostly wait; one more of those that don't runs beside them
RUNS = 3  # of a case that failed where the machine was late
OWN_FORM = ("canary", "loops", "metrics", "the_program", "watching")  # subjects whose cases say how their services run, or start none

CASES = []


class Case:
    """A case, by its name and what it does. One that leaves it open how its services run has to pass in both forms."""

    def __init__(self, name, does, waits, quick):
        self.name = name
        self.does = does
        self.waits = waits
        self.quick = quick
        self.left_open = does.__module__.rsplit(".", 1)[-1] not in OWN_FORM


def case(does=None, waits=False, quick=True):
    """Makes a function a case. One that waits for seconds to go by runs beside others; the rest run one after another. One that isn't
    quick bounds memory of which a checked program takes more, or takes that more than ten seconds of processor time: `--quick`
    leaves it out."""

    def add(does):
        CASES.append(Case(does.__name__, does, waits, quick))
        return does

    return add(does) if does else add


def what_came(error):
    """What a failure says, in one line."""
    if isinstance(error, Wrong):
        return str(error)
    place = traceback.extract_tb(error.__traceback__)[-1]
    return f"{type(error).__name__}: {error} ({place.filename.rsplit('/', 1)[-1]}:{place.lineno})"


def why_failed(it):
    """Runs a case, and gives why it failed, or nothing. Where the machine was late it is run again."""
    for turn in range(RUNS):
        moments.begin_case()
        try:
            it.does()
            return None
        except Exception as error:  # a case may fail in any way, and the others go on
            why = what_came(error)
        if not moments.was_late():
            return why
    return f"{why} (the machine was late in each of {RUNS} runs)"


def run_all(cases, side_by_side=SIDE_BY_SIDE, busy=1):
    """Runs cases in threads, so many side by side of those that mostly wait and of those that don't, and gives each with why it
    failed, as they end."""
    ended = queue.Queue()
    lanes = {True: queue.Queue(), False: queue.Queue()}
    for it in cases:
        lanes[it.waits].put(it)

    def work(lane):
        while not CHILDREN.closed:
            try:
                it = lane.get_nowait()
            except queue.Empty:
                return
            ended.put((it, why_failed(it)))

    for waits in [True] * side_by_side + [False] * busy:
        threading.Thread(target=work, args=(lanes[waits],), daemon=True).start()
    for _ in cases:
        yield ended.get()


def failed_of(cases):
    """The cases that fail, each of which is told in a line."""
    failed = []
    for it, why in run_all(cases):
        if why is not None:
            failed.append(it)
            print(f"{it.name}: {why}", flush=True)
    return failed


def failed_twice(cases):
    """The cases that fail beside the others and then alone as well: much of what they look at turns on the time."""
    failed = failed_of(cases)
    for it in failed:
        print(f"once more, alone: {it.name}", flush=True)
    return [it for one in failed for it in failed_of([one])]
