"""A client of a node or a proxy, the requests that it sends, and the answers that it wants."""
import socket
import struct
import time

from wanted import Wrong

PATIENCE = 20  # seconds without a byte after which nothing more is waited for
SETTLING = 0.2  # seconds for the rest of an answer that is wrong already

STORED = b"STORED\r\n"
DELETED = b"DELETED\r\n"
NOT_FOUND = b"NOT_FOUND\r\n"
MISS = b"END\r\n"
ERROR = b"ERROR\r\n"
LOST = b"SERVER_ERROR leg lost\r\n"
BUSY = b"SERVER_ERROR busy\r\n"


def raw(text):
    """Bytes as they are, and a text as its bytes."""
    return text if isinstance(text, bytes) else text.encode("latin-1")


def set_of(key, value, flags=0, exptime=0, noreply=False):
    """The request that stores a value."""
    key, value = raw(key), raw(value)
    return b"set %s %d %d %d%s\r\n%s\r\n" % (key, flags, exptime, len(value), b" noreply" * noreply, value)


def get_of(*keys):
    """The request for the values of these keys."""
    return b"get %s\r\n" % b" ".join(raw(key) for key in keys)


def delete_of(key, noreply=False):
    """The request that drops a value."""
    return b"delete %s%s\r\n" % (raw(key), b" noreply" * noreply)


def hits(*items):
    """The answer to a get that found these: each a key, a value, and flags where they aren't 0."""
    texts = []
    for key, value, *flags in items:
        key, value = raw(key), raw(value)
        texts.append(b"VALUE %s %d %d\r\n%s\r\n" % (key, *(flags or [0]), len(value), value))
    return b"".join(texts) + MISS


class Client:
    """One connection, over which a case asks and looks at each byte of what comes."""

    def __init__(self, address, little_room=False):
        self.address = address
        host, port = address.rsplit(":", 1)
        self.socket = socket.socket()
        if little_room:  # at both ends: the other one keeps what it may send in a few small packets
            self.socket.setsockopt(socket.SOL_SOCKET, socket.SO_RCVBUF, 4096)
            self.socket.setsockopt(socket.IPPROTO_TCP, socket.TCP_MAXSEG, 536)
        self.socket.settimeout(PATIENCE)
        try:
            self.socket.connect((host, int(port)))
        except OSError:
            self.socket.close()
            raise
        self.socket.setsockopt(socket.IPPROTO_TCP, socket.TCP_NODELAY, 1)

    def __enter__(self):
        return self

    def __exit__(self, *_):
        self.close()

    def send(self, *texts):
        """Sends some requests, or parts of them, in one call."""
        self.socket.sendall(b"".join(raw(text) for text in texts))

    def expect(self, wanted, what=None):
        """Reads exactly what is wanted, and not a byte behind it."""
        got = bytearray()
        while len(got) < len(wanted):
            came, end = self.piece(min(65536, len(wanted) - len(got)), PATIENCE)
            place = len(got)
            got += came
            if end or wanted[place : len(got)] != came:
                rest = end or self.rest()
                raise Wrong(what or f"an answer of {self.address}", wanted, bytes(got) + rest)

    def ask(self, request, wanted):
        """Sends a request, and reads the answer that is wanted."""
        self.send(request)
        self.expect(wanted, what=f"the answer of {self.address} to {raw(request)[:60]!r}")

    def ask_until(self, request, wanted, meanwhile):
        """Sends a request again and again while its answer is the line that comes meanwhile, until it is the one that is wanted."""
        until = time.monotonic() + PATIENCE
        while True:
            self.send(request)
            line = self.line()
            if line != meanwhile or time.monotonic() > until:
                break
            time.sleep(0.01)
        if not wanted.startswith(line):
            raise Wrong(f"the answer of {self.address} to {raw(request)[:60]!r} in the end", wanted, line)
        self.expect(wanted[len(line) :], what=f"the answer of {self.address} to {raw(request)[:60]!r} in the end")

    def value_of(self, key):
        """The value that a get finds under this key; nothing at a miss."""
        self.send(get_of(key))
        line = self.line()
        if line == MISS:
            return None
        words = line.split()
        if len(words) != 4 or words[:2] != [b"VALUE", raw(key)]:
            raise Wrong(f"the answer of {self.address} to a get of {key!r}", b"VALUE or END", line)
        value = b""
        while len(value) < int(words[3]):
            came, end = self.piece(int(words[3]) - len(value), PATIENCE)
            if end:
                raise Wrong(f"a value of {self.address}", line, value + end)
            value += came
        self.expect(b"\r\n" + MISS)
        return value.decode("latin-1")

    def line(self, patience=PATIENCE):
        """The next line, with its end."""
        got = b""
        while not got.endswith(b"\n"):
            came, end = self.piece(1, patience)
            if end:
                raise Wrong(f"a line of {self.address}", b"a whole line", got + end)
            got += came
        return got

    def expect_end(self, what=None):
        """The other side ends the connection, and sends nothing before that."""
        came, end = self.piece(1, PATIENCE)
        if came or end not in (b"<end>", b"<reset>"):
            rest = self.rest() if came else end
            raise Wrong(what or f"the end of the connection to {self.address}", b"<end>", came + rest)

    def piece(self, most, patience):
        """What one read brings, and what ended the stream where it brings nothing."""
        self.socket.settimeout(patience)
        try:
            came = self.socket.recv(most)
        except ConnectionResetError:
            return b"", b"<reset>"
        except socket.timeout:
            return b"", b"<nothing more>"
        return came, b"" if came else b"<end>"

    def all_that_comes(self):
        """All that comes until the stream ends, and what ended it."""
        got, end = b"", b""
        while not end:
            came, end = self.piece(65536, PATIENCE)
            got += came
        return got, end

    def rest(self):
        """What comes within a moment, to show it."""
        got, until = b"", time.monotonic() + SETTLING
        while len(got) < 4096 and time.monotonic() < until:
            came, end = self.piece(4096, SETTLING)
            got += came
            if end == b"<nothing more>":
                break
            if end:
                return got + end
        return got

    def stop_sending(self):
        """Ends the stream of requests, and goes on reading."""
        self.socket.shutdown(socket.SHUT_WR)

    def quit(self):
        """Says goodbye, and waits until the other side has ended the connection."""
        self.send(b"quit\r\n")
        self.expect_end()
        self.close()

    def reset(self):
        """Breaks the connection off, so that the other side's next read or write fails."""
        self.socket.setsockopt(socket.SOL_SOCKET, socket.SO_LINGER, struct.pack("ii", 1, 0))
        self.socket.close()

    def close(self):
        """Ends the connection."""
        self.socket.close()
