"""What is read from a JSON value, each refusal in its place. Written from docs/FORMATS.md and what docs/definitions prints
of mr_configs and mr_scripts.

An object is looked at in this order: it is none (WrongKind), it has a key that isn't known (UnknownKey), it lacks one
(MissingKey); then its members.
"""
from . import refusals, text

NUMBERS = range(2**64)
MOST_BYTES = 16_777_216


def check_size(data):
    if len(data) > MOST_BYTES:
        raise refusals.plan("TooLarge")


def check_object(value, needed, optional=()):
    if type(value) is not dict:
        raise refusals.plan("WrongKind")
    check_keys(value, needed, optional)


def check_keys(value, needed, optional=()):
    if any(key not in needed and key not in optional for key in value):
        raise refusals.plan("UnknownKey")
    if any(key not in value for key in needed):
        raise refusals.plan("MissingKey")


def check_kind(is_right):
    if not is_right:
        raise refusals.plan("WrongKind")


def number(value, allowed=NUMBERS):
    check_kind(type(value) is int and value in allowed)
    return value


def array(value):
    check_kind(type(value) is list)
    return value


def octets(value):
    """The bytes that a text stands for: each character is one, its code point being the byte."""
    check_kind(type(value) is str)
    try:
        return value.encode("latin-1")
    except UnicodeEncodeError:
        raise refusals.plan("WrongKind") from None


def key(value):
    made = octets(value)
    check_kind(text.is_key(made))
    return made
