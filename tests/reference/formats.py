"""The two formats of scripts and transcripts: how data stands in each, and how much of it. Written from docs/FORMATS.md, "Scripts".

In format 1 a character is a byte, as in keys. In format 2 two hexadecimal digits are one.
"""
import re
from typing import Callable, NamedTuple

from . import fields, text

DIGITS = re.compile("[0-9A-Fa-f]*")


class Format(NamedTuple):
    number: int
    most_of_data: int  # bytes
    octets: Callable[[object], bytes]  # what a value stands for
    shown: Callable[[bytes], str]  # how a transcript writes these bytes

    def data(self, value):
        """The data that a value says."""
        made = self.octets(value)
        fields.check_kind(len(made) <= self.most_of_data)
        return made


def octets_of_digits(value):
    fields.check_kind(type(value) is str and len(value) % 2 == 0 and DIGITS.fullmatch(value) is not None)
    return bytes.fromhex(value)


def characters(octets):
    """The text of these bytes, a character each."""
    return octets.decode("latin-1")


ONE = Format(1, 8192, fields.octets, characters)
TWO = Format(2, text.MOST_OF_BLOCK, octets_of_digits, bytes.hex)


def format_of(value):
    """The format that a script's value of `format` names."""
    number = fields.number(value)
    fields.check_kind(number in (1, 2))
    return ONE if number == 1 else TWO
