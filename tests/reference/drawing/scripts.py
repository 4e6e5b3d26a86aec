"""Texts of scripts and transcripts: spelled oddly, refused for each reason, at the limits, and altered in one place.

A transcript is a script with four keys more, so what is wrong with the one is wrong with the other.
"""
from . import configs, data
from .alterations import OTHER_KEYS, OTHER_KINDS, alter, alter_at, altered_bytes, pick
from .configs import NO_JSON, NOT_NUMBERS, TOO_LARGE
from .spelling import Raw, compact, nested, spelled

NOT_TEXTS = (*data.NOT_TEXTS, Raw('"\\ud800"'))
NOT_KEYS = (*NOT_TEXTS, "", "x" * 251, "a b", "\n", "\u007f", "k\0")
OP = [0, 0, 0]
# Values that the member of a key can't have.
BAD = {
    "do": (None, "", "Clock", 1, "quit", ["clock"], "restart"),
    "proxy": (*NOT_NUMBERS, 2**32),
    "reading": NOT_NUMBERS,
    "room": NOT_NUMBERS,
    "capacity": NOT_NUMBERS,
    "message": NOT_NUMBERS,
    "now": NOT_NUMBERS,
    "reply": NOT_NUMBERS,
    "format": (*NOT_NUMBERS, 0, 1, 2, 3, 258, 2**32 + 1, "1", "2", Raw("1.0"), Raw("2e0")),
    "request": (None, [], "get k", {}, {"kind": "quit"}, {"kind": "get"}),
    "kind": (None, "", "GET", "quit", 1, "gets"),
    "keys": (None, [], "k", {}, [1], [""], ["k", "a b"], ["k"] * 4095, ["k", None], ["\u0100"], ["x" * 250] * 32 + ["y" * 157]),
    "key": NOT_KEYS,
    "flags": (*NOT_NUMBERS, 2**32),
    "exptime": (None, "0", 2**63, Raw("-9223372036854775809"), Raw("-0"), Raw("1.0"), Raw("1e1"), True),
    "noreply": (None, 0, 1, "true", []),
    "node": (*NOT_TEXTS, "", "x" * 256, "a,b", "a b", "\u00e9", "\n"),
    "op": (None, [], [0, 0], [0, 0, 0, 0], "0.0.0", [0, 0, "0"], [2**32, 0, 0], [0, -1, 0], [0, 0, Raw("0.0")], {"op": OP}),
    "config": (None, [], {}, "config", 1),
    "held": (None, {}, "", 0, [None], [[]], ["k"], [{}]),
    "proxies": (None, {}, "", 0, [None], [[]], [0], [{}]),
    "setup": (None, [], {}, "setup", 1),
    "events": (None, {}, "", 0, True),
}
EVENTS = (
    {"do": "clock", "proxy": 0, "reading": 0},
    {"do": "client", "proxy": 0, "request": {"kind": "get", "keys": ["k"]}},
    {"do": "client", "proxy": 0, "request": {"kind": "set", "key": "k", "flags": 0, "exptime": 0, "data": "76", "noreply": False}},
    {"do": "client", "proxy": 0, "request": {"kind": "delete", "key": "k", "noreply": True}},
    {"do": "deliver", "message": 0, "now": 0},
    {"do": "return", "reply": 0},
    {"do": "give_up", "op": [0, 0, 0]},
    {"do": "node_restart", "node": "7001"},
    {"do": "proxy_restart", "proxy": 0},
)
VERDICTS = ("safe", "stale", "unsafe", {"stale": {"get": [0, 0, 1], "key": "k", "delete": [0, 0, 0]}},
            {"invented": {"get": [0, 0, 0], "key": "k"}}, {"safe": None}, ["safe"], None, True)
MANY_EVENTS = Raw("[" + "null," * 65_536 + "null]")


def refused_text(source, value):
    """The bytes of a script or a transcript that is refused for a drawn reason, or for the earlier of two."""
    shape = source.randrange(len(FAULTS) + 2)
    if shape == 0:
        return TOO_LARGE if source.random() < 0.05 else source.choice(NO_JSON)
    if shape == 1:
        return configs.faulty_text(source, compact(value).encode())
    for fault in source.sample(FAULTS, source.choice((1, 1, 1, 2))):
        value = configs.broken(source, value, fault)
    return spelled(source, value)


def altered_text(source, value):
    """The bytes of a script or a transcript that is changed in one place, which may leave it as good as before."""
    if source.random() < 0.15:
        return altered_bytes(source, compact(value).encode())
    key = source.choice(sorted(value))
    if key == "verdict" and source.random() < 0.5:
        value[key] = pick(source, VERDICTS)
    elif isinstance(value[key], (dict, list)) and value[key] and source.random() < 0.9:
        alter(source, value[key])
    else:
        alter_at(source, value, key)
    return spelled(source, value) if source.random() < 0.5 else compact(value).encode()


def is_none(source, value):
    return source.choice(([value], 1, "script", Raw("null"), nested(1), nested(127), nested(128)))


def has_an_unknown_key(source, value):
    setup = value["setup"]
    within = source.choice((value, setup, *setup["held"], *setup["proxies"]))
    within[source.choice(OTHER_KEYS)] = pick(source, (*OTHER_KINDS, nested(124), nested(125), nested(126), nested(127)))


def lacks_a_key(source, value):
    setup = value["setup"]
    within = source.choice((value, value, setup, *setup["held"], *setup["proxies"]))
    del within[source.choice(sorted(within))]


def has_a_bad_member(source, value):
    """A member is of another kind, or of a value that it may not have."""
    setup = value["setup"]
    within = source.choice((value, setup, setup, *setup["held"], *setup["proxies"]))
    bad = bad_values(source)
    key = source.choice([key for key in sorted(within) if key in bad])
    within[key] = pick(source, bad[key])


def bad_values(source):
    return {**BAD, "data": data.bad_texts(source.form)}


def has_a_bad_config(source, value):
    setup = value["setup"]
    own = [proxy for proxy in setup["proxies"] if "config" in proxy]
    within = source.choice((setup, *own))
    faults = configs.FAULTS if source.random() < 0.2 else configs.FAULTS_OF_ITS_OWN
    within["config"] = configs.broken(source, within["config"], source.choice(faults))


def has_a_bad_setup(source, value):
    setup = value["setup"]
    if source.random() < 0.4:
        setup["capacity"] = 0
    else:
        item = {"node": source.choice(("none", "7001x", "9001")), "key": "k", "flags": 0, "data": ""}
        setup["held"].insert(source.randrange(len(setup["held"]) + 1), item)
        setup["config"]["pools"]["unused"] = {"servers": ["9001"]}


def has_a_bad_event(source, value):
    value["events"].insert(source.randrange(len(value["events"]) + 1), bad_event(source))


def bad_event(source):
    """An event that can't be made: one member is bad, or is missing, or is one too many."""
    event = pick(source, EVENTS)
    within = source.choice((event, event["request"])) if "request" in event else event
    key = source.choice(sorted(within))
    change = source.randrange(8)
    if change == 0:
        return source.choice((None, 0, "clock", [], [event], {}))
    if change == 1:
        del within[key]
        within.pop("kind", None)
    elif change == 2:
        within[source.choice(("", "at", "Key", "servers"))] = pick(source, OTHER_KINDS)
    else:
        within[key] = pick(source, bad_values(source)[key])
    return event


def is_too_large(source, value):
    """More proxies or more events than there may be, and perhaps events that are none."""
    if source.random() < 0.8:
        value["setup"]["proxies"] = [{"reading": 0, "room": 1}] * 65
        value["events"] = source.choice((value["events"], None, [0]))
    else:
        value["events"] = MANY_EVENTS


FAULTS = (is_none, has_an_unknown_key, lacks_a_key, has_a_bad_member, *[has_a_bad_config] * 6, has_a_bad_setup, has_a_bad_setup,
          has_a_bad_event, is_too_large, is_too_large)
