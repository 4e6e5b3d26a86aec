"""What a package is made of: the proved program of these sources, their version and moment, and the licences of what it holds."""
import os
import pathlib
import re
import shutil
import subprocess

from making import OUT, ROOT, mark_of, sources_sum

PROVED = OUT / "migctl"
WRITTEN = OUT / "proved"  # by scripts/prove


class NoProgram(Exception):
    """There is no program that a package may be made of: why."""


def is_proved():
    """Whether the program that stands there is the one that `./migctl prove` made of these very sources: it wrote down of which
    sources it is, and which program."""
    if not (PROVED.is_file() and WRITTEN.is_file()):
        return False
    return WRITTEN.read_text(encoding="utf-8") == mark_of(PROVED, sources_sum())


def program(unproved):
    """The program of the package. One that MIGCTL names counts as unproved, whatever it is."""
    named = os.environ.get("MIGCTL")
    if unproved and named:
        return pathlib.Path(named).resolve()
    if unproved:
        raise NoProgram("--unproved is for a program that MIGCTL names")
    if named:
        raise NoProgram("nobody knows whether the program that MIGCTL names is proved: --unproved makes a package that says so")
    if not is_proved():
        raise NoProgram(f"there is no proved program of these sources at {PROVED.relative_to(ROOT)}: ./migctl prove makes it")
    return PROVED


def version_of(it):
    """The version that a program tells."""
    said = subprocess.run([it, "--version"], capture_output=True, text=True)
    found = re.fullmatch(r"migctl (\d+\.\d+\.\d+)\n", said.stdout)
    if said.returncode != 0 or not found:
        raise NoProgram(f"{it} --version: status {said.returncode}, {said.stdout!r}")
    return found[1]


def moment(newest_day):
    """The seconds since the epoch that stand for when the package was made: SOURCE_DATE_EPOCH, else when the commit was made, or
    without a repository the day of the newest version."""
    if "SOURCE_DATE_EPOCH" in os.environ:
        return int(os.environ["SOURCE_DATE_EPOCH"])
    if (ROOT / ".git").exists():
        told = subprocess.run(["git", "-C", ROOT, "log", "-1", "--format=%ct"], capture_output=True, text=True, check=True)
        return int(told.stdout)
    return int(newest_day.timestamp())


def kit_crates():
    """The crates of Rattle's kit that the program is built with, by crates.txt."""
    uses = {}
    for line in (ROOT / "crates.txt").read_text(encoding="utf-8").splitlines():
        head, colon, below = line.partition(":")
        if colon and not line.startswith("#"):
            uses[head.split()[0]] = below.split()
    needed, kit = ["migctl"], set()
    for name in needed:
        for below in uses[name]:
            if below not in uses:
                kit.add(below)
            elif below not in needed:
                needed.append(below)
    return sorted(kit)


def licences():
    """The licence of each crate of the kit that has one, by the crate's name: where it has several, MIT's."""
    if not shutil.which("rt"):
        raise NoProgram("the toolchain isn't there, with the licences of the libraries that the program holds")
    told = subprocess.run(["rt", "doc"], capture_output=True, text=True, check=True)
    kit = pathlib.Path(told.stdout.split()[0]).parent / "rattle"
    texts = {}
    for name in kit_crates():
        files = sorted((kit / name).glob("LICENSE*"), key=lambda file: (file.name != "LICENSE-MIT", file.name))
        if files:
            texts[name] = files[0].read_text(encoding="utf-8").strip()
    return texts
