"""Data of items, as texts of the format that a source draws scripts of."""
import functools

from .. import formats

SMALL = (b"v", b"w", b"", b"a\r\nb", b'\0\x1f"\\\x7f\xe9\xff/\b\f')
MOST_MIDDLING = 300
LARGE = (8193, 10_000, 65_536)
# What no text of data is, in either format.
NOT_TEXTS = (None, 1, [], {}, "\u0100", "k\u4e2d", "k\U0001f600")
NOT_DIGITS = ("7", "767", "v", "vv", "7g", "g7", "G7", "7/", "7:", "@7", "7`", " 7", "7 ", " 76", "76 ", "7 6 ", "0x76", "+7", "-7", "7_6_",
              "\\x76", "76\n", "7\0", "\u00e9\u00e9", "\u0667\u0666", "\uff17\uff16", "\U0001d7d5\U0001d7d4", 76, 7.5, ["76"])


def drawn(source):
    """Data of a few bytes, or in format 2 now and then of many."""
    if source.form is formats.TWO and source.random() < 0.3:
        size = source.choice(LARGE) if source.random() < 0.01 else source.randrange(MOST_MIDDLING)
        return source.randbytes(size)
    return source.choice(SMALL)


def longest(source):
    """How many bytes the longest data has; now and then less, where it is very long."""
    return source.choice((*LARGE, source.form.most_of_data)) if source.form is formats.TWO else source.form.most_of_data


def text_of(source, data):
    """What says this data in a script: in format 2 digits in lower case, in upper case or in both."""
    text = source.form.shown(data)
    if source.form is formats.ONE:
        return text
    place = source.choice((0, 0, len(text), source.randrange(len(text) + 1)))
    return text[:place].upper() + text[place:]


@functools.lru_cache(maxsize=None)
def bad_texts(form):
    """Values that data can't have in a format."""
    if form is formats.ONE:
        return (*NOT_TEXTS, "x" * (form.most_of_data + 1))
    return (*NOT_TEXTS, *NOT_DIGITS, "00" * (form.most_of_data + 1))
