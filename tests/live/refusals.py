"""What is refused, what is answered then, and whether the connection goes on: by docs/PROTOCOL.md, at nodes and proxies alike."""
from client import ERROR, MISS, get_of

UNKNOWN = (b"gets k", b"GET k", b"touch k 0", b"incr k 1", b"flush_all", b"stats", b"version", b"", b"  ")
UNKNOWN_WITH_BLOCK = (b"add k 0 0 1", b"replace k 0 0 1", b"append k 0 0 1", b"prepend k 0 0 1", b"cas k 0 0 1 7")

CLOSING = (
    (b"get " + b"k" * 8189 + b"\r\n", b"line too long"),
    (b"x" * 8194, b"line too long"),
    (b"get\r\n", b"wrong words"),
    (b"set k 0 0\r\n", b"wrong words"),
    (b"set k 0 0 1 reply\r\n", b"wrong words"),
    (b"delete k 5\r\n", b"wrong words"),
    (b"get " + b"k" * 251 + b"\r\n", b"bad key"),
    (b"delete a\x7fb\r\n", b"bad key"),
    (b"get k\r\r\n", b"bad key"),
    (b"set k -1 0 1\r\n", b"bad number"),
    (b"set k 4294967296 0 1\r\n", b"bad number"),
    (b"set k 0 +1 1\r\n", b"bad number"),
    (b"set k 0 0 1048577\r\n", b"data too long"),
    (b"set k 0 0 1048577 noreply\r\n", b"data too long"),
    (b"set k 0 0 1\r\nvw", b"bad data end"),
    (b"set k 0 0 1\r\nv\n", b"bad data end"),
)


def look_at(service):
    """Sends each, and looks at the answer and at what becomes of the connection."""
    asked = get_of("absent")
    with service.client() as client:
        for line in UNKNOWN:
            client.ask(line + b"\r\n" + asked, ERROR + MISS)
    for line in UNKNOWN_WITH_BLOCK:
        with service.client() as client:
            client.ask(line + b"\r\n" + asked, ERROR)
            client.expect_end(f"the end behind {line!r}")
    for request, cause in CLOSING:
        with service.client() as client:
            client.ask(request, b"CLIENT_ERROR " + cause + b"\r\n")
            client.expect_end(f"the end behind {request[:40]!r}")
