"""What several cases need."""
import contextlib
import os
import threading
import time

from client import PATIENCE
from wanted import Wrong, check

VALUE = b"v" * 100
LARGEST = (bytes(range(97, 123)) * 40330)[: 1 << 20]  # as large as a value may be
MIB = 1 << 20


def is_proved():
    """Whether the program is a proved one, whose memory and speed say something."""
    return "DRIVER_UNPROVED" not in os.environ


@contextlib.contextmanager
def closing(*nodes):
    """Closes nodes in the end."""
    try:
        yield nodes[0] if len(nodes) == 1 else nodes
    finally:
        for it in nodes:
            it.close()


def in_threads(*jobs):
    """Runs functions side by side. Fails where one did."""
    failures = []

    def guarded(job):
        try:
            job()
        except BaseException as error:  # whatever it is, it is raised again
            failures.append(error)

    threads = [threading.Thread(target=guarded, args=(job,), daemon=True) for job in jobs]
    for it in threads:
        it.start()
    for it in threads:
        it.join(4 * PATIENCE)
        if it.is_alive():
            raise Wrong("what runs side by side", "an end", "it runs")
    if failures:
        raise failures[0]


def wait_until(what, holds):
    """Waits until something holds."""
    until = time.monotonic() + PATIENCE
    while not holds():
        if time.monotonic() > until:
            raise Wrong(what, "in time", "never")
        time.sleep(0.02)


def expect_nothing(client, seconds=0.2):
    """Nothing comes for so long."""
    check(f"what comes from {client.address}", (b"", b"<nothing more>"), client.piece(1, seconds))
