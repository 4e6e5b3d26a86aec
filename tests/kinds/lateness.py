"""How late this machine is, which is measured all the while.

A bound of time is looked at from both sides. From below nothing is allowed but what a turn of a loop is coarse by: what comes too
early is wrong on any machine. From above four times the greatest lateness is allowed that was measured meanwhile, beside two fifths
of a second and a seventh of the time itself, by which the system's own timers may be late: what a bound proves is then that something
ended, by its own time and not by another one that is twice as long.
"""
import collections
import threading
import time

import moments
from wanted import Wrong

STEP = 0.01  # seconds that are slept through, again and again
EARLY = 0.03  # seconds before its time at which something may be over
GRAIN = 0.4  # seconds behind its time at which something may be over on a machine that is never late
MOST_LATE = 0.1  # seconds of lateness beside which a failure says nothing of the program


class Lateness:
    """By how much a thread that sleeps for a moment wakes too late."""

    def __init__(self):
        self.seen = collections.deque(maxlen=100_000)
        threading.Thread(target=self.measure, daemon=True).start()

    def measure(self):
        """Notes each time that it is a few milliseconds late or more."""
        while True:
            begun = time.monotonic()
            time.sleep(STEP)
            now = time.monotonic()
            if now - begun > STEP + 0.003:
                self.seen.append((now, now - begun - STEP))

    def since(self, moment):
        """The greatest lateness since a moment."""
        return max((late for at, late in list(self.seen) if at >= moment), default=0.0)


LATENESS = Lateness()


def late_since(begun):
    """The greatest lateness since a moment. Where it is a great one the case is run again, should it fail."""
    late = LATENESS.since(begun)
    if late > MOST_LATE:
        moments.this_thread.late = True
    return late


def check_took(what, begun, least, most=None, ended=None):
    """What began then was over after this time at least, and after `most` seconds, or as many, at most but for lateness."""
    ended = time.monotonic() if ended is None else ended
    allowed = 1.15 * (least if most is None else most) + GRAIN + 4 * late_since(begun)
    if not least - EARLY <= ended - begun <= allowed:
        raise Wrong(f"the seconds until {what}", f"{least} to {allowed:.2f}", f"{ended - begun:.2f}")


def note_late(begun, most=0.03):
    """Where the machine was later than this since a moment, the case is run again, should it fail."""
    if LATENESS.since(begun) > most:
        moments.this_thread.late = True
