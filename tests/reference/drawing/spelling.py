"""JSON values as texts, compact or in odd spellings, and with pieces of text in the place of values."""
import json
import re

GAPS = ("", "", " ", "\n", "\t \r\n", "   ")
# Letters that stand in texts alone, and what they may be written as there.
ESCAPES = {"k": ("\\u006b", "\\u006B"), "/": ("\\/", "\\u002f"), "o": ("\\u006f",)}
HELD = re.compile(r'"<piece ([0-9]+)>"')


class Raw:
    """Text that stands where a value would: what no value is spelled as, or more than one member of an object."""

    def __init__(self, text):
        self.text = text


def compact(value):
    return text_of(value, (",", ":"), False)


def spelled(source, value):
    """The bytes of a value, with other spaces, another order of the outermost keys and other escapes than the compact text's."""
    if isinstance(value, dict):
        value = dict(source.sample(sorted(value.items(), key=lambda member: member[0]), len(value)))
    gap = source.choice(GAPS)
    separators = source.choice(GAPS) + "," + gap, source.choice(GAPS) + ":" + gap
    text = gap + text_of(value, separators, source.random() < 0.5) + source.choice(GAPS)
    letter = source.choice(("", "", "", *ESCAPES))
    return (text.replace(letter, source.choice(ESCAPES[letter])) if letter else text).encode()


def text_of(value, separators, is_ascii):
    pieces = []

    def hold(raw):
        pieces.append(raw.text)
        return f"<piece {len(pieces) - 1}>"

    text = json.dumps(value, default=hold, separators=separators, ensure_ascii=is_ascii)
    return HELD.sub(lambda piece: pieces[int(piece[1])], text) if pieces else text


def twice(key, first, second):
    """What stands for the value of a key where an object is to have this key with the one value and then with the other."""
    return Raw(f"{compact(first)},{json.dumps(key)}:{compact(second)}")


def nested(depth):
    return Raw("[" * depth + "]" * depth)
