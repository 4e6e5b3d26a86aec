"""Answers to requests for metrics and for statistics, and configurations for their digests; with their rows, and what is wanted."""
from .. import fetches
from .alterations import altered_bytes
from .configs import NO_JSON, migration
from .sources import Source
from .spelling import spelled

HOSTS = ("127.0.0.1:9100", "localhost:1", "[::1]:9100", "here", "", "h\u00e9")
STATUSES = (*[b"200 OK"] * 30, b"200", b"200 ", b"200 \t\xff", b"201 Created", b"404 Not Found", b"503 Service Unavailable",
            b"100", b"2000", b"20", b"")  # fmt: skip
VERSIONS = (*[b"HTTP/1.1"] * 20, b"HTTP/1.0", b"HTTP/1.2", b"HTTP/2.0", b"http/1.1", b" HTTP/1.1")
FIELDS = (b"Content-Type: text/plain", b"Connection: close", b"X:", b"A-b: \t c ", b"Content-Lengths: 1", b"X: Content-Length: 1")
BODIES = (b"", b"a 1\n", b"\r\n\r\n", b"HTTP/1.1 200 OK\r\n\r\n", b"5\r\nmetri\r\n0\r\n\r\n", b"x" * 4096, b"y" * 9000)
STATS = (b"STAT curr_items 5\r\n", b"STAT get_hits 7\r\n", b"STAT a b c\r\n", b"END", b"\r\n", b"END\r\n", b"ERROR\r\n", b"\n",
         b"x" * 5000, b"z" * 40_000)  # fmt: skip
ODD_JSON = (b" [1, 2 ]\n", b"null", b"true", b'""', b"18446744073709551615", b"-9223372036854775808", b'{"b":1,"a":2,"b":3}',
            b'{"\\u00e9":1,"z":2,"\xf0\x9f\x98\x80":3,"\\uffee":4}',
            b'["\\u0000\\u001f\\u007f\\"\\\\\\/\\b\\f\\n\\r\\t"]', b"[" * 127 + b"]" * 127)  # fmt: skip


def drawn_fetch(source):
    """A host, an answer, and how many spaces follow that."""
    body = source.choice(BODIES)
    end = source.choice((b"\r\n", b"\r\n", b"\r\n", b"\n"))
    fields = [source.choice(FIELDS) for _ in range(source.choice((0, 1, 1, 3, 3, 3, 3, 3, 62, 64, 65)))]
    fields[source.randrange(len(fields) + 1) : 0] = drawn_length(source, len(body))
    head = end * source.choice((0, 0, 0, 1, 2)) + source.choice(VERSIONS) + b" " + source.choice(STATUSES) + end
    response = head + b"".join(field + end for field in fields) + source.choice((*[end] * 9, b"")) + body
    if source.random() < 0.2:
        response = altered_bytes(source, response)
    return source.choice(HOSTS), response, drawn_spaces(source, len(response))


def drawn_length(source, length):
    """Fields that tell of the body's length or its coding, none of them or some."""
    if source.random() < 0.2:
        return []
    name = source.choice((*[b"Content-Length"] * 6, b"content-length", b"CONTENT-LENGTH", b"Transfer-Encoding"))
    told = source.choice((*[length] * 9, length - 1, length + 1, 0))
    space = source.choice((b" ", b" ", b"", b"\t "))
    return [name + b":" + space + b"%d" % told + source.choice((*[b""] * 9, b" ", b"0"))] * source.choice((1, 1, 2))


def drawn_spaces(source, length):
    """Mostly none; seldom so many that the answer is as long as it may be, or longer."""
    if source.random() > 0.005:
        return 0
    return fetches.MOST_RESPONSE - length + source.choice((0, 1))


def drawn_asking(source):
    """Two parts of an answer, each of which is read by itself."""
    return tuple(b"".join(source.choice(STATS) for _ in range(source.choice((0, 1, 2, 3)))) for _ in range(2))


def drawn_config(source):
    """The bytes of a configuration, some of them altered, or other JSON, or none; each number is whole."""
    if source.random() < 0.1:
        return source.choice(ODD_JSON + NO_JSON)
    config = spelled(source, migration(Source(source.random())))
    other = altered_bytes(source, config) if source.random() < 0.3 else config
    try:
        fetches.of_digest(other)
        return other
    except TypeError:
        return config


def row_of_fetch(host, response, spaces):
    return f"fetch -{host.encode().hex()} -{response.hex()} {spaces}"


def row_of_asking(first, second):
    return f"ask -{first.hex()} -{second.hex()}"


def wanted_of_fetch(host, response, spaces):
    return fetches.of_fetch(host, response + b" " * spaces)


# for each kind of row: how it is drawn, spelled and answered
KINDS = {
    "fetch": (drawn_fetch, lambda known: row_of_fetch(*known), lambda known: wanted_of_fetch(*known)),
    "ask": (drawn_asking, lambda known: row_of_asking(*known), lambda known: fetches.of_asking(*known)),
    "digest": (drawn_config, lambda known: f"digest -{known.hex()}", fetches.of_digest),
}
