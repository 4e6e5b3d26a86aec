"""Peers that are slow on purpose, each in a way of its own."""
import itertools
import socket
import threading
import time

from client import MISS, NOT_FOUND, STORED, hits
from fake import FakeNode

LITTLE = 4096  # bytes of room


class Silent(FakeNode):
    """A node that reads what it is asked and answers nothing."""

    def __init__(self, **where):
        super().__init__(self.read_on, **where)

    def read_on(self, link):
        """Reads requests to the end."""
        while link.request():
            pass


class Dripping(FakeNode):
    """A node that answers each get by a value of which it sends a byte after each pause, and so never is silent for longer."""

    def __init__(self, pause, **where):
        self.pause = pause
        super().__init__(self.drip, **where)

    def drip(self, link):
        """Answers byte by byte."""
        while request := link.request():
            for byte in hits((request.split()[1].decode(), "v" * 40)):
                time.sleep(self.pause)
                link.send(bytes([byte]))


class OneByOne(FakeNode):
    """A node that takes a while for each request, and answers it whole then, also where the next ones have come meanwhile. The last of
    these times is that of all further ones too."""

    def __init__(self, *pauses, **where):
        self.pauses = pauses
        super().__init__(self.answer, **where)

    def answer(self, link):
        """Answers as a node that holds nothing."""
        for number in itertools.count():
            if not (request := link.request()):
                return
            time.sleep(self.pauses[min(number, len(self.pauses) - 1)])
            link.send({b"get": MISS, b"set": STORED, b"delete": NOT_FOUND}[request.split()[0]])


class Deaf:
    """A node that accepts connections and reads nothing of what comes, for which there is little room at both ends."""

    def __init__(self):
        self.listener = socket.socket()
        self.listener.setsockopt(socket.SOL_SOCKET, socket.SO_RCVBUF, LITTLE)
        self.listener.setsockopt(socket.IPPROTO_TCP, socket.TCP_MAXSEG, 536)
        self.listener.bind(("127.0.0.1", 0))
        self.listener.listen(128)
        self.address = "127.0.0.1:%d" % self.listener.getsockname()[1]
        self.streams = []
        threading.Thread(target=self.accept, daemon=True).start()

    def accept(self):
        """Takes connections until it is closed."""
        while True:
            try:
                self.streams.append(self.listener.accept()[0])
            except OSError:
                return

    def close(self):
        """Ends all connections, and takes no more."""
        self.listener.shutdown(socket.SHUT_RDWR)
        for it in (self.listener, *self.streams):
            it.close()
