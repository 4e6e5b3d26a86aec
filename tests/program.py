#!/usr/bin/env python3
"""Where the program under test is: what MIGCTL names, or the proved one of these very sources, which is made where it isn't there.

Usage: tests/program.py   prints its absolute path
"""
import os
import pathlib
import subprocess
import sys

ROOT = pathlib.Path(__file__).resolve().parent.parent
BUILT = ROOT / "crates/migctl/out/migctl"
# An unproved program keeps no freed memory aside: its sanitizer would else mistake what a preloaded library frees.
SANITIZED = "quarantine_size_mb=0:thread_local_quarantine_size_kb=0"


def path():
    """The program, as an absolute path. `./migctl prove` is run, which is silent and quick where the proved one is there; ./migctl
    itself is left out, since it looks over all sources at each call and may run a program that isn't proved."""
    os.environ.setdefault("MALLOC_ARENA_MAX", str(2 * len(os.sched_getaffinity(0))))  # as ./migctl has it
    if "MIGCTL_UNPROVED" in os.environ:
        os.environ.setdefault("ASAN_OPTIONS", SANITIZED)
    if "MIGCTL" in os.environ:
        return str(pathlib.Path(os.environ["MIGCTL"]).resolve())
    if subprocess.run([ROOT / "migctl", "prove"], stdout=sys.stderr).returncode != 0:
        sys.exit("there is no proved program")
    return str(BUILT)


if __name__ == "__main__":
    if sys.argv[1:]:
        sys.exit(__doc__.strip())
    print(path())
