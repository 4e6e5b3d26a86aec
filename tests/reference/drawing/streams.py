"""Texts of streams: requests and replies one after another, in odd spellings, refused, at the limits, and noise."""
from . import requests
from .alterations import altered_bytes

CAUSES = (b"line too long", b"bad key", b"bad number", b"wrong words", b"data too long", b"bad data end", b"leg lost", b"busy",
          b"out of memory", b"clock fault", b"book full", b"numbers spent", b"node refused")
NOISE = (b"VALUE", b"END", b"STORED", b"DELETED", b"NOT_FOUND", b"ERROR", b"CLIENT_ERROR", b"SERVER_ERROR", b" ", b" ", b"  ", b"k",
         b"0", b"1", b"\r", b"\n", b"\r\n", b"\0", b"\t", b"busy", b"\xff", b"1048577")
UNKNOWN = (b"", b" ", b"\r", b"VALUES k 0 1", b"value k 0 1", b"END\r", b"STORED\t", b"OK", b"get k", b"NOT_STORED", b"EXISTS", b"\0END")


def drawn_text(source, kind, most):
    """A text of so many bytes or a few more; less where a reader has closed before, though something may stand behind that."""
    good, bad = (good_request, bad_request) if kind == "requests" else (good_reply, bad_reply)
    text = b""
    odds = 0.3 if most <= 100 else 0.03
    while len(text) < most:
        if source.random() < odds:
            return text + bad(source) + source.choice((b"", b"", good(source)))
        text += good(source)
    return text


def good_request(source):
    """Requests, and lines of unknown commands behind which a reader goes on."""
    make = source.choice((requests.get, requests.get, requests.set_, requests.set_, requests.delete, skipped_line))
    return make(source) if source.random() < 0.99 else requests.long_line(source)


def skipped_line(source):
    return source.choice((b"gets k", b"touch k 0", b"", b"  ", b"\r", b"GET k", b"quit\r", b"version", b"\0get k")) + ending(source)


def bad_request(source):
    make = source.choice((requests.refused_request, requests.refused_request, requests.altered_request, requests.quit_))
    return make(source)


def good_reply(source):
    return source.choice((plain, error, items, items, items))(source)


def bad_reply(source):
    if source.random() < 0.02:
        return many_items(source)
    return source.choice((unknown, wrong_words, refused_item, refused_item, behind_an_item, cut, altered, noise, long_line))(source)


def ending(source):
    return source.choice((b"\r\n", b"\r\n", b"\n"))


def plain(source):
    return requests.line(source, [source.choice((b"STORED", b"DELETED", b"NOT_FOUND", b"ERROR", b"END"))])


def error(source):
    """An error with a named cause, with almost one, with any text, with none, or at the limit."""
    text = source.choice((
        source.choice(CAUSES), source.choice(CAUSES) + source.choice((b" ", b"\r", b"x")), b" " + source.choice(CAUSES), b"",
        requests.data(source)[:8000].replace(b"\n", b""), b"x" * source.choice((8178, 8179)) if source.random() < 0.05 else b"x"))
    between = b"" if text == b"" and source.random() < 0.5 else b" "
    around = b" " * source.choice((0, 0, 0, 1, 3)) if len(text) < 8000 else b""
    return around + source.choice((b"CLIENT_ERROR", b"SERVER_ERROR")) + between + text + ending(source)


def items(source):
    count = source.choice((0, 1, 1, 1, 2, 3, 8)) if source.random() < 0.995 else source.choice((4093, 4094))
    if count > 8:
        return b"VALUE k 0 0\n\r\n" * count + b"END\n"
    return b"".join(item(source) for _ in range(count)) + requests.line(source, [b"END"])


def item(source):
    block = requests.data(source)
    size = requests.number(source, len(block)).lstrip(b"-")
    return requests.line(source, [b"VALUE", requests.key(source), requests.flags(source), size]) + block + b"\r\n"


def unknown(source):
    return source.choice(UNKNOWN) + ending(source)


def wrong_words(source):
    words = source.choice((
        [b"STORED", b"0"], [b"DELETED", b"noreply"], [b"NOT_FOUND", b"\r"], [b"ERROR", b"bad", b"key"], [b"END", b"END"], [b"VALUE"],
        [b"VALUE", b"k"], [b"VALUE", b"k", b"0"], [b"VALUE", b"k", b"0", b"1", b"7"], [b"VALUE", b"a b", b"0", b"1"]))
    return requests.line(source, words) + b"v\r\n"


def refused_item(source):
    """An item whose key, one of whose numbers, or whose block is refused, at times behind others."""
    flags, _, size = requests.bad_number(source)
    wrong = source.choice((
        [b"VALUE", requests.bad_key(source), b"0", b"1"], [b"VALUE", b"k", flags, size], [b"VALUE", b"k", b"0", b"1048577"],
        [b"VALUE", b"k", b"0", b"18446744073709551615"], [b"VALUE", b"k", b"0", b"0"], [b"VALUE", b"k", b"0", b"2"]))
    before = b"".join(item(source) for _ in range(source.choice((0, 0, 1, 2))))
    return before + requests.line(source, wrong) + source.choice((b"v\r\n", b"v\n", b"v\r\r", b"vv\r\n")) + b"END\r\n"


def behind_an_item(source):
    """A line behind an item that may not stand there, though some of them begin a reply."""
    lines = b"STORED", b"", b" ", b"SERVER_ERROR busy", b"VALUE", b"END 0", b"x" * 8193, b"VALUE k 0", b"ERROR", b"end"
    return item(source) + source.choice(lines) + ending(source) + b"END\r\n"


def cut(source):
    whole = good_reply(source)
    return whole[:source.choice((len(whole) - 1, len(whole) - 2, source.randrange(len(whole))))]


def altered(source):
    return altered_bytes(source, good_reply(source))


def noise(source):
    return b"".join(source.choices(NOISE, k=source.randrange(1, 12)))


def long_line(source):
    """A line at the limit, above it, or as long without an end."""
    begun = source.choice((b"END", b"SERVER_ERROR ", b"STORED", b"VALUE k 0 1", b"x"))
    filler = source.choice((b" ", b"x", b"\r"))
    return begun.ljust(source.choice((8191, 8192, 8193, 8194)), filler) + source.choice((b"", b"\n", b"\r\n", b"\r"))


def many_items(source):
    """One item more than a reply may have, which may be wrong in another way too."""
    last = source.choice((b"VALUE k 0 0\r\n\r\n", b"VALUE k 0 0", b"VALUE k x 0\n", b"VALUE\n", b"END 1\n", b"END\n"))
    return b"VALUE k 0 0\n\r\n" * 4094 + last
