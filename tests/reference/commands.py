"""What the program answers: from its words, files and standard input to its status, output and faults.

Written from docs/OPERATING.md, "The commands", and docs/FORMATS.md, "What is printed". Of the words only those shapes are known
that drawn cases have. Faults are looked for in the order words, file, configuration or script, request.
"""
import re
from typing import NamedTuple

from . import configs, fields, pictures, refusals, text, transcripts, upgrades
from .phases import PHASES, spread
from .proxies import Proxy


class Answer(NamedTuple):
    status: int
    stdout: bytes
    stderr: bytes


class Fault(Exception):
    """A line on standard error that isn't a refusal's, and the status that the program ends with."""

    def __init__(self, line, status):
        super().__init__(line, status)
        self.line = line
        self.status = status


def answer(words, files, stdin):
    command, *others = words
    try:
        status, lines = COMMANDS[command](others, files, stdin)
        return Answer(status, b"".join(line + b"\n" for line in lines), b"")
    except refusals.Refusal as refusal:
        return Answer(1, b"", f"{refusal.line}\n".encode())
    except Fault as fault:
        return Answer(fault.status, b"", f"{fault.line}\n".encode())


def options(words):
    """The value of each option: an option's name and its value are two words, in any order of options."""
    return dict(zip(words[::2], words[1::2]))


def load(files, path):
    if path not in files:
        raise Fault(f"migctl: file {path}", 1)
    return files[path]


def given(words, files, stdin):
    """The bytes of the file that the words name, or the standard input where they name none."""
    return load(files, words[0]) if words else stdin


def encoded(lines):
    return [line.encode() for line in lines]


def planned(words, files):
    """The configuration of a plan and its second: those of two options, or those of six words."""
    if words[0].startswith("--"):
        chosen = options(words)
        return configs.read_config(load(files, chosen["--config"])), int(chosen["--at"])
    old, new, start, interval, name, at = words
    return configs.read_words(old, new, int(start), int(interval), name), int(at)


def plan(words, files, stdin):
    config, at = planned(words, files)
    request = text.first_request(stdin)
    legs = []
    if not isinstance(request, text.Quit):
        _, legs = Proxy(0, config, 1).issue(at, request)
    lines = [f"leg {place} {leg.side} {leg.node}" for place, leg in enumerate(legs)]
    return 0, encoded([f"phase {standing_text(config.schedule, at)} at {at}", *lines])


def timeline(words, files, _):
    chosen = options(words)
    readings = readings_of(chosen["--readings"]) if "--readings" in chosen else None
    schedule = configs.read_config(load(files, chosen["--config"])).schedule
    return 0, encoded(span_lines(schedule) + ([] if readings is None else advice_lines(schedule, readings)))


def readings_of(word):
    members = word.split(",")
    if not all(re.fullmatch("[0-9]+", member) and int(member) in fields.NUMBERS for member in members):
        raise Fault("migctl: words --readings", 2)
    return [int(member) for member in members]


def standing_text(schedule, reading):
    """The phase of a reading, and of which hop it is where there is more than one."""
    hop, phase = schedule.standing(reading)
    return f"{phase} of hop {hop}" if len(schedule.hops) > 1 else phase


def span_lines(schedule):
    """The phases of each hop in order. Before the first start there is an old-only, which is the first hop's; the new-only of a
    hop lasts until the next one starts."""
    lines = []
    for number, hop in enumerate(schedule.hops):
        followers = [then.start for then in schedule.hops[number + 1:]]
        bounds = [*([0] if number == 0 else []), *hop.bounds(), *followers[:1]]
        phases = PHASES if number == 0 else PHASES[1:]
        before = f"hop {number} " if len(schedule.hops) > 1 else ""
        lines += [f"{before}{phase} {span}" for phase, span in zip(phases, spans(bounds, not followers))]
    return lines


def spans(bounds, is_open):
    """The first and the last reading from each bound on to before the next one, or `none`; from the last bound on, if that is open,
    only the first."""
    told = ["none" if first == behind else f"{first} {behind - 1}" for first, behind in zip(bounds, bounds[1:])]
    return [*told, str(bounds[-1])] if is_open else told


def advice_lines(schedule, readings):
    lines = [f"reading {place} {reading} {standing_text(schedule, reading)}" for place, reading in enumerate(readings)]
    apart = spread(readings)
    allowed = schedule.least_interval()
    told = "ok" if apart <= allowed else "too far"
    return [*lines, f"spread {apart} allowed {allowed} {told}"]


def run(words, files, stdin):
    return 0, [transcripts.transcript(given(words, files, stdin))]


def upgrade(words, files, stdin):
    return 0, [upgrades.upgrade(given(words, files, stdin))]


def check(words, files, stdin):
    checked = transcripts.check(given(words, files, stdin))
    is_accepted = checked.outcome == "accepted"
    premises = " ".join(f"{name} {str(holds).lower()}" for name, holds in checked.premises.items())
    outcome = checked.outcome if is_accepted else f"not accepted: {checked.outcome}"
    return 0 if is_accepted else 3, encoded([f"premises {premises}", verdict_line(checked.verdict), outcome])


def verdict_line(verdict):
    line = f"verdict {verdict.kind}"
    for role in ("get", "delete"):
        op = getattr(verdict, role)
        if op is not None:
            line += f" {role} {'.'.join(map(str, op))}"
    return line


def draw(words, files, stdin):
    _, lines = check(words, files, stdin)
    return 0, pictures.draw(given(words, files, stdin), lines).split(b"\n")[:-1]


COMMANDS = {"draw": draw, "plan": plan, "timeline": timeline, "run": run, "check": check, "upgrade": upgrade}
