"""Ends what the run of cases started, once that run is gone, however it went.

It reads one line for each program: `+<id>` when it was started, `-<id>` when it has ended. At the end of its input, which
comes too where the run was killed and could end nothing itself, it kills what is left, each with its group. Signals are
ignored, so that the one that ends the run doesn't end this before it.
"""
import os
import signal
import sys


def kept():
    """The ids that are left at the end of the input."""
    left = set()
    for line in sys.stdin:
        if line.startswith("+"):
            left.add(int(line[1:]))
        else:
            left.discard(int(line[1:]))
    return left


def main():
    for number in (signal.SIGINT, signal.SIGTERM, signal.SIGHUP):
        signal.signal(number, signal.SIG_IGN)
    for number in kept():
        try:
            os.killpg(number, signal.SIGKILL)
        except ProcessLookupError:
            pass


main()
