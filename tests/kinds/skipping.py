"""Cases that can't be run here, and why."""
import threading

REASONS = {}
LOCK = threading.Lock()


def skip(name, why):
    """This case wasn't run."""
    with LOCK:
        REASONS[name] = f"skipped: {why}"


def reason_of(name):
    """Why a case wasn't run; nothing where it was."""
    with LOCK:
        return REASONS.get(name)
