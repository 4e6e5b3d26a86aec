"""Texts of requests: in odd spellings, refused for each reason and for several at once, at the limits, and noise."""
from .alterations import altered_bytes

KEY_BYTES = bytes(byte for byte in range(33, 256) if byte != 127)
PLAIN_KEYS = (b"k", b"a", b"b", b"user:1", b"0", b"noreply", b"get", b"-1", b"\xff\x80", b"!")
LIMITS = (8191, 8192, 8193, 8194)  # about that of lines
BLOCKS = (*[(8191, 8192, 8193)] * 9, (1_048_575, 1_048_576, 1_048_577))  # the limit of blocks less often
UNKNOWN = (
    b"gets k", b"cas k 0 0 1 5", b"add k 0 0 1", b"replace k 0 0 1", b"append k 0 0 1", b"prepend k 0 0 1", b"touch k 0",
    b"incr k 1", b"stats", b"version", b"flush_all", b"mg k v", b"VALUE k 0 1", b"END", b"GET k", b"Get k", b"getk", b"deletek",
    b"quit\r", b"get\tk", b"set\0k", b"\0get k", b"\x80\x01", b"\xef\xbb\xbfget k", b"", b" ", b"\r")
NOISE = (b"get", b"set", b"delete", b"quit", b"k", b" ", b" ", b"  ", b"\r", b"\n", b"\r\n", b"0", b"1", b"noreply", b"\0", b"\t",
         b"-", b"\xff", b"\x7f", b"99999999999999999999", b"4294967296", b"1048577")


def valid_request(source):
    """A request that is accepted, and often something behind it, which is ignored."""
    make = source.choice((get, get, set_, set_, delete, delete, long_line, quit_))
    return make(source) + source.choice((b"", b"", b"get b\r\n", b"\r\n", b"junk", b"\xff" * 9000))


def refused_request(source):
    return source.choice(REFUSED)(source)


def altered_request(source):
    return altered_bytes(source, source.choice((get, set_, set_, delete, quit_))(source))


def key(source):
    if source.random() < 0.7:
        return source.choice(PLAIN_KEYS)
    size = source.choice((1, 2, 20, 249, 250))
    return bytes(source.choices(KEY_BYTES, k=size))


def bad_key(source):
    bad = source.choice((b"x" * 251, b"k\tk", b"\x7f", b"k\r", b"\x00", b"y" * 300, b"\x1f"))
    return bad if source.random() < 0.7 else key(source) + b"\x01"


def line(source, words):
    """A line of these words, with more spaces than it needs, and either end."""
    between = source.choice((b" ", b" ", b"  ", b"     "))
    around = source.choice((b"", b"", b" ", b"   "))
    return around + between.join(words) + source.choice((b"", around)) + source.choice((b"\r\n", b"\r\n", b"\n"))


def number(source, value):
    digits = str(abs(value)).encode()
    zeros = b"0" * source.choice((0, 0, 0, 1, 30, 5000 if source.random() < 0.1 else 2))
    return (b"-" if value < 0 or value == 0 and source.random() < 0.1 else b"") + zeros + digits


def flags(source):
    return number(source, source.choice((0, 0, 1, 77, 2**32 - 1))).lstrip(b"-")


def exptime(source):
    return number(source, source.choice((0, 0, 1, -1, 2592000, 2592001, 2**63 - 1, -(2**63))))


def data(source):
    if source.random() < 0.1:
        return b"z" * source.choice((8191, 8192, 8193))
    return source.choice((b"", b"v", b"\r\n", b"a\r\nb", b"END\r\n", b"\0", source.getrandbits(80).to_bytes(10, "big")))


def get(source):
    count = source.choice((1, 1, 1, 2, 3, 8))
    keys = [key(source) for _ in range(count)]
    return line(source, [b"get", *keys, *keys[:source.randrange(2)]])


def delete(source):
    return line(source, [b"delete", key(source), *source.choice(([], [], [b"0"], [b"noreply"], [b"0", b"noreply"]))])


def set_(source):
    block = data(source)
    size = number(source, len(block)).lstrip(b"-")
    words = [b"set", key(source), flags(source), exptime(source), size, *source.choice(([], [], [b"noreply"]))]
    return line(source, words) + block + b"\r\n"


def quit_(source):
    return line(source, [b"quit"])


def long_line(source):
    """A get of as many bytes as a line may have, by keys or by spaces; one delete in some leading zeros' place."""
    shape = source.randrange(3)
    if shape == 0:
        return b"get" + b" k" * source.choice((4093, 4094)) + source.choice((b"\n", b"\r\n", b" \r\n"))
    if shape == 1:
        return (b"get " + key(source)).ljust(source.choice((8191, 8192))) + source.choice((b"\n", b"\r\n"))
    return (b"delete " + key(source)).rjust(8192) + source.choice((b"\n", b"\r\n"))


def too_long(source):
    ended = source.choice((b"get" + b" k" * 4095, b"get k".ljust(8193), b"x" * 8193, b"set " + b" " * 9000, b"\r" * 8194))
    return source.choice((ended + b"\n", ended + b"\r\n", b"get k".ljust(8194), b"x" * 8194, b"get k".ljust(8193) + b"\r"))


def unknown(source):
    return source.choice(UNKNOWN) + source.choice((b"\r\n", b"\n")) + source.choice((b"", b"get k\r\n"))


def wrong_words(source):
    name = key(source)
    of_set = [b"set", name, b"0", b"0", b"1"]
    of_delete = [b"delete", name]
    words = source.choice((
        [b"get"], [b"quit", b"now"], of_delete[:1], [*of_delete, b"5"], [*of_delete, b"00"], [*of_delete, b"0", b"0"],
        [*of_delete, b"noreply", b"0"], [*of_delete, b"noreply", b"noreply"], [*of_delete, b"0", b"noreply", b"0"],
        of_set[:1], of_set[:2], of_set[:4], [*of_set, b"NOREPLY"], [*of_set, b"0"], [*of_set, b"noreply", b"noreply"]))
    return line(source, words) + b"v\r\n"


def refused_key(source):
    bad = bad_key(source)
    words = source.choice(([b"get", bad], [b"get", key(source), bad], [b"delete", bad, b"0"], [b"set", bad, b"0", b"0", b"1"]))
    return line(source, words) + b"v\r\n"


def bad_number(source):
    """The words of the three numbers of a set, one of them none."""
    words = [b"0", b"0", b"1"]
    place = source.randrange(3)
    beyond = (b"4294967296", b"-1"), (b"9223372036854775808", b"-9223372036854775809"), (b"18446744073709551616", b"-1")
    others = b"x", b"1.0", b"+1", b"0x1", b"1e3", b"\xff", b"1_0", "\u0661".encode(), b"9" * 30, b"1\r", b"--1", b"-"
    words[place] = source.choice(source.choice((beyond[place], others)))
    return words


def refused_number(source):
    return line(source, [b"set", key(source), *bad_number(source)]) + b"v\r\n"


def too_much_data(source):
    size = source.choice((b"1048577", b"0001048577", b"2097152", b"18446744073709551615", b"4294967296"))
    return line(source, [b"set", key(source), b"0", b"0", size]) + source.choice((b"", b"v\r\n", b"v" * 8193 + b"\r\n"))


def bad_data_end(source):
    block = data(source)
    ends = (b"\n", b"\r\r", b"\r ", b" \r\n", b"X", b"\r\0\n", b"\n\r")
    return line(source, [b"set", key(source), b"0", b"0", str(len(block)).encode()]) + block + source.choice(ends)


def cut(source):
    whole = source.choice((get, set_, set_, delete))(source)
    # The last byte of a request is always needed.
    return whole[:source.choice((0, len(whole) - 1, len(whole) - 2, source.randrange(len(whole))))]


def at_limit(source):
    """Lines, keys and blocks of a size at their limits, with and without an end."""
    shape = source.randrange(3)
    if shape == 0:
        filler = source.choice((b" ", b"k", b"\r"))
        return b"get k".ljust(source.choice(LIMITS), filler) + source.choice((b"", b"\r", b"\n", b"\r\n"))
    if shape == 1:
        words = source.choice(([b"get"], [b"delete"], [b"get", b"k"]))
        return b" ".join([*words, b"x" * source.choice((250, 251))]) + b"\r\n"
    size = source.choice(source.choice(BLOCKS))
    block = b"z" * (size + source.choice((-1, 0, 0, 0, 1)))
    return b"set k 0 0 %d\r\n" % size + block + source.choice((b"\r\n", b"\r\n", b"\n", b""))


def several(source):
    """A set or a delete, each of whose parts may be wrong by itself."""
    def either(good, bad):
        return source.choice((good, good, bad))

    name = either(key, bad_key)(source)
    last = either([], source.choice(([b"noreply"], [b"5"], [b"noreply", b"1"])))
    if source.random() < 0.3:
        return line(source, [either(b"delete", b"Delete"), name, *last])
    block = data(source)
    size = str(len(block)).encode()
    numbers = either([b"0", b"0", either(size, b"1048577")], bad_number(source))
    words = [either(b"set", b"sets"), name, *numbers[:either(3, 2)], *last]
    return either(b"", b" " * 8200) + line(source, words) + block + either(b"\r\n", source.choice((b"\n", b"", b"\r", b"xx")))


def noise(source):
    return b"".join(source.choices(NOISE, k=source.randrange(1, 12)))


REFUSED = (too_long, unknown, wrong_words, refused_key, refused_number, refused_number, too_much_data, bad_data_end, cut, noise,
           at_limit, at_limit, at_limit, several, several)
