#!/usr/bin/env python3
"""Builds the program of a checkout without any proof, by the toolchain's command that tries a program.

Usage: tests/live/building.py FILE   copies the one of this checkout that scripts/checked makes sure of to a file
"""
import glob
import os
import pathlib
import shutil
import signal
import socket
import subprocess
import sys
import tempfile
import time

from ports import place_at

LIMIT = 1200  # seconds for one building


class NotBuilt(Exception):
    """The program couldn't be built: what the toolchain said."""


def build(checkout, program, tell=lambda: None):
    """Writes the program of a checkout to a file, and tells every moment that it still builds.

    The toolchain gives no unproved program out. It builds one in a folder of its own and runs it, here as a node of one
    client. Once that listens, the program is whole: it is copied while that client is connected, and what runs is told to end.
    """
    with tempfile.TemporaryDirectory(prefix="migctl-built-") as folder:
        place = place_at("127.0.0.1")
        log = pathlib.Path(folder) / "log"
        with open(log, "wb") as said:
            trying = subprocess.Popen(
                ["rt", "try", "--seconds", str(LIMIT), "--", "node", "--listen", place.address()],
                cwd=pathlib.Path(checkout) / "crates" / "migctl",
                env={**os.environ, "TMPDIR": folder},
                stdin=subprocess.DEVNULL,
                stdout=said,
                stderr=said,
            )
        try:
            with connected(trying, place.address(), log, tell):
                shutil.copy(one_program(folder), program)
            os.chmod(program, 0o755)
        finally:
            end(trying)
            place.close()


def connected(trying, address, log, tell):
    """A connection to the built program, once it listens."""
    until = time.monotonic() + LIMIT
    host, port = address.rsplit(":", 1)
    while trying.poll() is None and time.monotonic() < until:
        try:
            return socket.create_connection((host, int(port)), timeout=1)
        except OSError:
            tell()
            time.sleep(0.2)
    raise NotBuilt(log.read_text(errors="replace"))


def one_program(folder):
    """The program that the toolchain built in its folder."""
    found = glob.glob(f"{glob.escape(folder)}/*/*/program")
    if len(found) != 1:
        raise NotBuilt(f"programs in the toolchain's folder: {found}")
    return found[0]


def end(trying):
    """Ends the toolchain's command, which ends what it started and removes its folder."""
    if trying.poll() is None:
        trying.send_signal(signal.SIGTERM)
    try:
        trying.wait(30)
    except subprocess.TimeoutExpired:
        trying.kill()
        trying.wait()


if __name__ == "__main__":
    if len(sys.argv) != 2 or sys.argv[1].startswith("-"):
        sys.exit(__doc__)
    checked = pathlib.Path(__file__).resolve().parent.parent.parent / "scripts/checked"
    made = subprocess.run([checked], stdout=subprocess.PIPE, text=True)
    if made.returncode != 0:
        sys.exit(made.returncode)
    shutil.copy(made.stdout.strip(), sys.argv[1])
