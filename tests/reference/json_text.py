"""JSON as the formats read and write it. Written from RFC 8259 and the first section of docs/FORMATS.md.

Python's own reader takes more than that: NaN and Infinity, unpaired surrogates, and any depth or size of number.
"""
import json
import re

from . import refusals

DEEPEST = 127
WHOLE = range(-(2**63), 2**64)

BRACKETS = re.compile(r'"[^"\\]*(?:\\.[^"\\]*)*"|[\[{]|[\]}]', re.DOTALL)
ESCAPE = re.compile(r"\\(?:u([0-9a-fA-F]{4})|.)", re.DOTALL)


class OtherNumber:
    """A number that isn't written as a whole one, or is above the greatest: no field takes it, and it equals nothing."""


def read(data):
    """The value that the bytes are, or NotJson. Where an object has a key twice, the last value counts."""
    try:
        text = data.decode("utf-8")
        if is_too_deep(text) or has_unpaired_surrogate(text):
            raise refusals.plan("NotJson")
        return json.loads(text, parse_int=whole_number, parse_float=other_number, parse_constant=no_constant)
    except ValueError:
        raise refusals.plan("NotJson") from None


def write(value):
    """Compact JSON, the keys of each object in byte order, without a line end. Python escapes as the transcripts' page says."""
    return json.dumps(value, sort_keys=True, separators=(",", ":"), ensure_ascii=False).encode()


def is_same(a, b):
    """Whether two values are of one kind and say the same: Python alone would take 1 for True."""
    if type(a) is not type(b):
        return False
    if type(a) is dict:
        return a.keys() == b.keys() and all(is_same(value, b[key]) for key, value in a.items())
    if type(a) is list:
        return len(a) == len(b) and all(map(is_same, a, b))
    return a == b


def is_too_deep(text):
    if text.count("[") + text.count("{") <= DEEPEST:
        return False
    depth = 0
    for piece in BRACKETS.finditer(text):
        if piece[0] in ("[", "{"):
            depth += 1
            if depth > DEEPEST:
                return True
        elif piece[0] in ("]", "}"):
            depth -= 1
    return False


def has_unpaired_surrogate(text):
    """Whether a text behind \\u begins or ends a pair whose other half isn't there."""
    if "\\ud" not in text and "\\uD" not in text:
        return False
    due = None  # where the second half of a pair has to begin
    for piece in ESCAPE.finditer(text):
        unit = int(piece[1], 16) if piece[1] else 0
        is_second = 0xDC00 <= unit <= 0xDFFF
        if due != (piece.start() if is_second else None):
            return True
        due = piece.end() if 0xD800 <= unit <= 0xDBFF else None
    return due is not None


def whole_number(text):
    if len(text) <= 20 and text != "-0" and int(text) in WHOLE:
        return int(text)
    return other_number(text)


def other_number(text):
    if float(text) in (float("inf"), float("-inf")):
        raise ValueError("it fits no float")
    return OtherNumber()


def no_constant(text):
    raise ValueError(f"{text} is no JSON")
