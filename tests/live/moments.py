"""Moments at which a case looks, and whether the machine let it.

A case that turns on the time looks in the middle of what lasts a second or more, and notes where it was more than half a
second late for that. One that was late and failed says nothing of the program, and is run again.
"""
import contextlib
import threading
import time

ALLOWED = 0.5  # seconds behind a moment at which what is looked at there has to be over

this_thread = threading.local()


def begin_case():
    """Nothing was late in this thread so far."""
    this_thread.late = False


def was_late():
    """Whether anything was late in this thread, since its case began."""
    return getattr(this_thread, "late", False)


@contextlib.contextmanager
def moment(second):
    """Waits for a second since the epoch, and notes whether what is done there was over in time. Gives that second."""
    time.sleep(max(0.0, second - time.time()))
    try:
        yield second
    finally:
        if time.time() > second + ALLOWED:
            this_thread.late = True


def now():
    """What is done here has to be over soon, like what is done at any other moment."""
    return moment(time.time())


@contextlib.contextmanager
def within(seconds):
    """Notes whether what is done here was over within so many seconds."""
    begun = time.monotonic()
    try:
        yield
    finally:
        if time.monotonic() > begun + seconds:
            this_thread.late = True
