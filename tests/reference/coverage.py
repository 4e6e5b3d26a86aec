"""What drawn cases come to, counted, so that a generator that no longer comes to a line is noticed: on that line the reference
would agree with any program.
"""
import json
import re

from .formats import format_of
from .history import ACKNOWLEDGES
from .phases import MOST_HOPS, PHASES
from .refusals import NUMBERS
from .scripts import setup_of
from .transcripts import DIFFERENCES

# What reads a configuration is one kind of command, whichever it is.
READS = {"plan": "configuration", "timeline": "configuration", "run": "script", "check": "transcript", "draw": "transcript",
         "upgrade": "script"}

PREMISES = ("same", "new_empty", "forward", "near")
PLAN_REFUSALS = list(NUMBERS["plan"])
CONFIG_REFUSALS = PLAN_REFUSALS[: PLAN_REFUSALS.index("BadHash") + 1]
SCRIPT_REFUSALS = [name for name in PLAN_REFUSALS if name != "EventRefused"]
PLAY_MARKS = {
    "a hit": b'"items":[{',
    "a miss": b'"items":[]',
    "a lost leg": b'"server_error":"leg lost"',
    "a removed item": b'"entry":"removed"',
    "an item held from the beginning": b'"by":"beginning"',
    "a stranger": b'"stranger"',
    "a reply that isn't the last": b'"waiting"',
    "a restarted node": b'"do":"node_restart"',
    "a restarted proxy": b'"do":"proxy_restart"',
    "a request that is given up": b'"do":"give_up"',
    **{f"an answered {kind}": f'"reply":"{kind}"'.encode() for kind in ("stored", *ACKNOWLEDGES)},
}
PICTURE_MARKS = {
    "a reading": b">[OABN]</text>",
    "a reading in a later hop": b">[OABN][123]</text>",
    "a bar": b"'bar'",
    "words that are cut": rb"class='ask'.*\.\.<",
    "a byte that isn't printable": rb"\\x[0-9a-f]{2}",
    "a leg": b"'leg'",
    "a leg that came again": b"'leg again'",
    "a lost leg": b"'leg lost'",
    "a reply": b"'back'",
    "a reply that came again": b"'back again'",
    "a lost reply": b"'back lost'",
    "a request that is given up": b">gave up<",
    "a restarted node": b"'gap' .* height='8'",
    "a restarted proxy": b"'gap' .* width='6'",
    **{f"a leg that is told to {verb} at the {side} pool": f">{verb} {side}<".encode()
       for verb in ("get", "set", "del") for side in ("old", "new")},
    **{f"a reply of {outcome}": f">{outcome}<".encode() for outcome in ("hit", "miss", "stored", "deleted", "absent")},
}
BLAME_MARKS = {"a blamed bar": b"'bar blamed'", "a sentence": b"'plain bad'"}
BREAK_MARKS = {"a refused event": b">refused<", "an event behind it": b"'said' .*>-<"}
# What data of format 2 comes to, as an expression.
DIGITS_MARKS = {
    "empty data": rb'"data":""',
    "digits in lower case": rb'"data":"[0-9a-f]*[a-f]',
    "digits in upper case": rb'"data":"[0-9A-F]*[A-F]',
    "data of more than 8,192 bytes": rb'"data":"[0-9A-Fa-f]{16386}',
}


def missing(found):
    """The kinds that ought to be found of each sort of cases, where they are some two thousand, and aren't."""
    return [(sort, kind) for sort, expected in EXPECTED.items() for kind in expected if kind not in found[sort]]


def kinds_of(drawn, answer):
    """The kinds of what a drawn case comes to."""
    command = drawn.words[0]
    if answer.stderr:
        yield fault_kind(command, answer.stderr.decode().rstrip("\n"))
    else:
        yield from KINDS_OF_OUTPUT[command](answer.stdout)


def fault_kind(command, line):
    layer = line.split(" ")[1]
    if layer == "file":
        return "file"
    return f"{READS[command]}: {line}" if layer == "plan" else line


def kinds_of_plan(output):
    first, *legs = output.decode().splitlines()
    yield f"plan: {re.fullmatch('phase (.*) at [0-9]+', first)[1]}"
    yield f"plan: {min(len(legs), 3)} legs"


def kinds_of_timeline(output):
    for line in output.decode().splitlines():
        words = line.split(" ")
        if words[0] == "reading":
            yield f"timeline: reading {' '.join(words[3:])}"
        elif words[0] == "spread":
            yield f"timeline: spread {words[-1]}"
        elif words[-1] == "none":
            yield f"timeline: {words[-2]} none"


def kinds_of_transcript(output):
    verdict = "safe" if output.endswith(b'"verdict":"safe"}\n') else "stale"
    yield f"run: {verdict}"
    yield from kinds_of_hops(json.loads(output))
    for name, mark in PLAY_MARKS.items():
        if mark in output:
            yield f"run: {name}"
    yield from kinds_of_digits("run", output)
    if PLAY_MARKS["a hit"] in output:
        yield f"run: {verdict} with a hit"


def kinds_of_upgrade(output):
    yield "upgrade: written"
    yield from kinds_of_digits("upgrade", output)


def kinds_of_digits(command, output):
    for name, mark in DIGITS_MARKS.items():
        if re.search(mark, output):
            yield f"{command}: {name}"


def kinds_of_hops(transcript):
    """In how many hops requests were asked, by the clocks of their proxies; and where one premise alone is false and a hit is stale,
    in which hop its get was."""
    proxies = setup_of(transcript["setup"], format_of(transcript["format"])).proxies
    readings = [proxy.reading for proxy in proxies]
    hops = {}
    for event, note in zip(transcript["events"], transcript["notes"]):
        if event["do"] == "clock":
            readings[event["proxy"]] = event["reading"]
        elif event["do"] == "client":
            proxy = event["proxy"]
            hops[tuple(note["issued"])] = proxies[proxy].config.schedule.standing(readings[proxy]).hop
    yield f"run: requests in {len(set(hops.values()))} hops"
    broken = [name for name, holds in transcript["premises"].items() if not holds]
    if "stale" in transcript["verdict"] and len(broken) == 1:
        hop = hops[tuple(transcript["verdict"]["stale"]["get"])]
        yield f"run: stale in hop {hop} where {broken[0]} alone is false"


def kinds_of_check(output):
    premises, verdict, outcome = output.decode().splitlines()
    yield f"check: {' '.join(verdict.split(' ')[:2])}"
    yield f"check: {re.sub('[0-9]+', 'N', outcome)}"
    words = premises.split(" ")[1:]
    for name, holds in zip(words[::2], words[1::2]):
        yield f"check: {name} {holds}"


def kinds_of_picture(output):
    for name, mark in {**PICTURE_MARKS, **BLAME_MARKS, **BREAK_MARKS}.items():
        if re.search(mark, output):
            yield f"draw: {name}"


KINDS_OF_OUTPUT = {"plan": kinds_of_plan, "timeline": kinds_of_timeline, "run": kinds_of_transcript, "check": kinds_of_check,
                   "draw": kinds_of_picture, "upgrade": kinds_of_upgrade}


def line_of(layer, name):
    return f"migctl: {layer} {NUMBERS[layer][name]} {name}"


CONFIG_LINES = [f"configuration: {line_of('plan', name)}" for name in CONFIG_REFUSALS]
CHECK_LINES = [
    "check: verdict safe",
    "check: verdict stale",
    "check: accepted",
    "check: not accepted: event N refused",
    "check: not accepted: premise false",
    *(f"check: not accepted: {difference}" for difference in DIFFERENCES),
    *(f"check: {premise} {holds}" for premise in PREMISES for holds in ("true", "false")),
]
PICTURE_LINES = [f"draw: {name}" for name in (*PICTURE_MARKS, *BLAME_MARKS)]
PLAY_LINES = ["run: safe", "run: safe with a hit", "run: stale", *(f"run: {name}" for name in PLAY_MARKS)]
STANDINGS = [PHASES[0] + " of hop 0", *(f"{phase} of hop {hop}" for hop in range(MOST_HOPS) for phase in PHASES[1:])]
OFTEN_REFUSED = ("NotJson", "WrongKind", "MissingKey", "UnknownKey", "BadPool", "BadRoute", "BadEvent")
# What two thousand cases of each sort come to.
EXPECTED = {
    "drawn": [
        "file",
        "migctl: words --readings",
        *(line_of(layer, name) for layer in ("text", "pools", "phases") for name in NUMBERS[layer]),
        *CONFIG_LINES,
        *(f"{what}: {line_of('plan', name)}" for what in ("script", "transcript") for name in SCRIPT_REFUSALS),
        f"script: {line_of('plan', 'EventRefused')}",
        *(f"plan: {phase}" for phase in PHASES),
        *(f"plan: {count} legs" for count in range(4)),
        *(f"timeline: reading {phase}" for phase in PHASES),
        "timeline: spread ok",
        "timeline: spread far",
        f"timeline: {PHASES[0]} none",
        *PLAY_LINES,
        *CHECK_LINES,
        *PICTURE_LINES,
    ],
    "chain": [
        *CONFIG_LINES,
        *(f"{what}: {line_of('plan', name)}" for what in ("script", "transcript") for name in SCRIPT_REFUSALS),
        f"script: {line_of('plan', 'EventRefused')}",
        *(f"plan: {standing}" for standing in STANDINGS),
        *(f"timeline: reading {standing}" for standing in STANDINGS),
        "timeline: spread ok",
        "timeline: spread far",
        f"timeline: {PHASES[0]} none",
        f"timeline: {PHASES[-1]} none",
        *PLAY_LINES,
        *(f"run: requests in {count} hops" for count in (1, 2, 3)),
        *(f"run: stale in hop {hop} where {premise} alone is false" for hop in range(MOST_HOPS) for premise in PREMISES),
        *CHECK_LINES,
        *PICTURE_LINES,
    ],
    "format 2": [
        *(f"script: {line_of('plan', name)}" for name in NUMBERS["plan"]),
        *PLAY_LINES,
        *(f"run: {name}" for name in DIGITS_MARKS),
        "check: verdict safe",
        "check: verdict stale",
        "check: accepted",
        "check: not accepted: premise false",
    ],
    "upgrade": [
        *(f"script: {line_of('plan', name)}" for name in NUMBERS["plan"]),
        "upgrade: written",
        *(f"upgrade: {name}" for name in DIGITS_MARKS),
        *PLAY_LINES,
    ],
    "transcript": [*(f"transcript: {line_of('plan', name)}" for name in OFTEN_REFUSED), *CHECK_LINES,
                   *(f"draw: {name}" for name in BREAK_MARKS)],
    "configuration": [*CONFIG_LINES, *(f"plan: {count} legs" for count in range(3)), f"timeline: {PHASES[0]} none"],
}
