"""Nodes, and services that tell metrics, that answer as a case wants: late, in pieces, wrongly, or not at all."""
import socket
import threading
import time

from client import MISS, PATIENCE, hits
from reading import wait_until_read
from wanted import Wrong, check


class Link:
    """A proxy's connection to a fake node."""

    def __init__(self, stream, number):
        self.stream = stream
        self.number = number  # among the connections of this node, from 0
        self.lines = stream.makefile("rb")

    def request(self):
        """The next request, with its block where it is a set; nothing once the proxy has ended the connection."""
        try:
            line = self.lines.readline()
            if line.startswith(b"set "):
                line += self.lines.read(int(line.split()[4]) + 2)
        except OSError:
            return b""
        return line

    def send(self, text):
        """Sends a part of an answer, or the whole."""
        try:
            self.stream.sendall(text)
        except OSError:
            pass  # the proxy is gone, which its case sees by itself

    def close(self):
        """Ends the connection."""
        try:
            self.stream.shutdown(socket.SHUT_RDWR)
        except OSError:
            pass
        self.stream.close()


class FakeNode:
    """A node that serves each connection by a function of its link, in a thread of its own."""

    def __init__(self, talk, host="127.0.0.1", port=0, listener=None):
        self.talk = talk
        self.listener = listener or socket.create_server((host, port), backlog=128)
        self.address = "%s:%d" % (host, self.listener.getsockname()[1])
        self.links = []
        threading.Thread(target=self.accept, daemon=True).start()

    def accept(self):
        """Serves connections until it is closed."""
        while True:
            try:
                stream, _ = self.listener.accept()
            except OSError:
                return
            stream.setsockopt(socket.IPPROTO_TCP, socket.TCP_NODELAY, 1)
            link = Link(stream, len(self.links))
            self.links.append(link)
            threading.Thread(target=self.serve, args=(link,), daemon=True).start()

    def serve(self, link):
        """Serves one connection, and ends it."""
        try:
            self.talk(link)
        except Wrong:
            pass  # the proxy didn't read, which its case sees by what comes
        finally:
            link.close()

    def close(self):
        """Ends all connections, and takes no more."""
        self.listener.shutdown(socket.SHUT_RDWR)  # wakes the thread that waits to accept, which a close doesn't
        for it in (self.listener, *self.links):
            it.close()


def answering(answers):
    """Answers the requests of each connection by this list, and then ends the connection. An answer is a text, or a list
    of pieces, each of which comes by a read of its own."""

    def talk(link):
        for answer in answers:
            if not link.request():
                return
            pieces = [answer] if isinstance(answer, bytes) else answer
            for piece in pieces:
                link.send(piece)
                if piece is not pieces[-1]:
                    wait_until_read(link.stream)
        link.request()

    return talk


class FullQueue:
    """An address whose queue of connections is full, so that connecting to it takes until the system gives up."""

    def __init__(self):
        self.sockets = [socket.create_server(("127.0.0.1", 0), backlog=0)]
        name = self.sockets[0].getsockname()
        self.address = "127.0.0.1:%d" % name[1]
        for _ in range(4):
            waiting = socket.socket()
            self.sockets.append(waiting)
            waiting.setblocking(False)
            waiting.connect_ex(name)

    def serve(self, talk):
        """From now on it is a node there that serves each connection by a function of its link."""
        listener, *waiting = self.sockets
        self.sockets = []
        for it in waiting:
            it.close()
        return FakeNode(talk, listener=listener)

    def close(self):
        """Keeps the address no longer."""
        for it in self.sockets:
            it.close()


class Teller(FakeNode):
    """A service that answers each request by a text, after so many seconds: both are functions of the request's number, from 0.
    A request for metrics is one of HTTP, and so is its answer. In a journal it notes its name and the time of each request."""

    def __init__(self, text_of, delay_of=lambda number: 0, name="", journal=None, **where):
        self.text_of = text_of
        self.delay_of = delay_of
        self.name = name
        self.journal = [] if journal is None else journal
        self.asked = 0
        super().__init__(self.answer, **where)

    def answer(self, link):
        """Answers one request, and ends the connection."""
        line = link.request()
        if not line:
            return
        number, self.asked = self.asked, self.asked + 1
        self.journal.append((self.name, time.monotonic()))
        text = self.text_of(number)
        if line.startswith(b"GET "):
            while link.request().strip():
                pass
            text = b"HTTP/1.1 200 OK\r\nContent-Length: %d\r\n\r\n" % len(text) + text
        time.sleep(self.delay_of(number))
        link.send(text)


class SlowNode(FakeNode):
    """A node that keeps the gets that come until it is told to answer them."""

    def __init__(self):
        self.changed = threading.Condition()
        self.waiting = []
        super().__init__(self.take)

    def take(self, link):
        """Keeps what comes."""
        while True:
            request = link.request()
            if not request:
                return
            with self.changed:
                self.waiting.append((link, request))
                self.changed.notify_all()

    def wait_for(self, count):
        """Waits until so many requests wait for an answer. More than these are wrong."""
        until = time.monotonic() + PATIENCE
        with self.changed:
            while len(self.waiting) < count:
                if not self.changed.wait(until - time.monotonic()):
                    raise Wrong("requests that reach a slow node", count, len(self.waiting))
            check("requests that reach a slow node", count, len(self.waiting))

    def requests(self):
        """What waits for an answer."""
        with self.changed:
            return [request for _, request in self.waiting]

    def answer_all(self, values):
        """Answers all gets that wait, by a value for each key; a key without one is missing."""
        with self.changed:
            answered, self.waiting = self.waiting, []
        for link, request in answered:
            key = request.split()[1].decode()
            link.send(hits((key, values[key])) if key in values else MISS)
