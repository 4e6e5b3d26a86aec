"""Counts what one request takes in a service of migctl, by callgrind: what stands from run to run.

A service is run twice, with `FEW` requests and with `MANY`, one at a time over one connection to loopback, and the difference is
told for a request: instructions, allocations (calls of the C library for memory) and system calls. Readings of the clock are left
out of these, since they are calls of the system under callgrind alone. Keys have 16 bytes and come in an order that a fixed seed
gives; a node holds 32 items, and a proxy has one node in each of two pools, of which the second one is asked by deletes in both
pools alone.
"""
import contextlib
import json
import pathlib
import random
import re
import shutil
import socket
import subprocess
import tempfile
import time
from typing import NamedTuple

KEYS = [b"key-%012d" % number for number in range(32)]
TOGETHER = 10  # keys in one get of many
FEW, MANY = 200, 1200
SEED = 7
LATER = 4_000_000_000  # a migration that begins so late that all requests go to the old pool
INTERVAL = 1_000_000  # seconds of a phase, in which a migration that has just begun stays
PATIENCE = 60  # seconds for an answer
MEMORY = {"malloc", "calloc", "realloc", "posix_memalign", "aligned_alloc", "memalign"}
CLOCK = {"clock_gettime", "clock_gettime@@GLIBC_2.17"}
WORKS = {"node": ("get", "set", "delete", "get10"), "proxy": ("get", "set", "delete", "delete2", "get10")}


class Failed(Exception):
    """A service didn't start, or answered otherwise than it has to."""


class Counts(NamedTuple):
    """What one request takes."""

    instructions: float
    allocations: float
    calls: float


class Form(NamedTuple):
    """How services run: the length of values, whether they tell their metrics, and whether a client has a thread of its own."""

    size: int = 100
    metrics: bool = False
    threads: bool = False


def is_there():
    """Whether callgrind is."""
    return shutil.which("valgrind") is not None


def free_port():
    with socket.socket() as found:
        found.bind(("127.0.0.1", 0))
        return found.getsockname()[1]


def connect(port):
    for _ in range(600):
        try:
            return socket.create_connection(("127.0.0.1", port), timeout=PATIENCE)
        except OSError:
            time.sleep(0.1)
    raise Failed("nothing listens")


def ask(client, request, end):
    client.sendall(request)
    answer = b""
    while not answer.endswith(end):
        piece = client.recv(65536)
        if not piece:
            raise Failed(f"answered {answer!r}")
        answer += piece
    return answer


def expect(answer, wanted):
    if answer != wanted:
        raise Failed(f"answered {answer[:200]!r} in place of {wanted[:200]!r}")


class Client:
    """The one client of a service."""

    def __init__(self, socket, size):
        self.socket, self.value, self.drawn = socket, b"v" * size, random.Random(SEED)

    def fill(self):
        """Sets all keys, once the service has its connections."""
        request = b"set %s 0 0 %d\r\n%s\r\n" % (KEYS[0], len(self.value), self.value)
        until = time.monotonic() + PATIENCE
        while ask(self.socket, request, b"\r\n") != b"STORED\r\n":
            if time.monotonic() > until:
                raise Failed("nothing is stored")
            time.sleep(0.1)
        for key in KEYS:
            self.set(key)

    def set(self, key):
        request = b"set %s 0 0 %d\r\n%s\r\n" % (key, len(self.value), self.value)
        expect(ask(self.socket, request, b"\r\n"), b"STORED\r\n")

    def get(self, keys):
        items = b"".join(b"VALUE %s 0 %d\r\n%s\r\n" % (key, len(self.value), self.value) for key in keys)
        expect(ask(self.socket, b"get %s\r\n" % b" ".join(keys), b"END\r\n"), items + b"END\r\n")

    def delete(self, key):
        """A delete of a key that isn't there."""
        expect(ask(self.socket, b"delete gone%s\r\n" % key[4:], b"\r\n"), b"NOT_FOUND\r\n")

    def work(self, kind):
        """One request."""
        if kind == "get10":
            self.get(self.drawn.sample(KEYS, TOGETHER))
            return
        key = self.drawn.choice(KEYS)
        if kind == "get":
            self.get([key])
        elif kind == "set":
            self.set(key)
        else:
            self.delete(key)


def drive(port, kind, count, size):
    """Asks a service so often."""
    with connect(port) as socket:
        client = Client(socket, size)
        client.fill()
        for _ in range(count):
            client.work(kind)
        socket.sendall(b"quit\r\n")
        while socket.recv(65536):
            pass


def form_words(form):
    """The words that say how a service runs."""
    metrics = ["--metrics", f"127.0.0.1:{free_port()}"] if form.metrics else []
    return metrics if form.threads else [*metrics, "--forever", "--loops", "1", "--quiet"]


def totals_of(profile):
    """Instructions, allocations and system calls of a profile of callgrind."""
    names, calls, called = {}, {"memory": 0, "clock": 0}, None
    totals = [0, 0]
    for line in profile.open(encoding="utf-8", errors="replace"):
        if match := re.match(r"c?fn=\((\d+)\)(?: (.*))?", line):
            number, name = match.groups()
            if name is not None:
                names[number] = name.strip()
            called = names.get(number) if line.startswith("c") else None
        elif match := re.match(r"calls=(\d+)", line):
            if called in MEMORY:
                calls["memory"] += int(match[1])
            elif called in CLOCK:
                calls["clock"] += int(match[1])
        elif match := re.match(r"totals: (\d+) (\d+)", line):
            totals = [int(number) for number in match.groups()]
    return Counts(totals[0], calls["memory"], totals[1] - calls["clock"])


def counted(words, port, kind, count, form):
    """What a service took in all that was asked so often."""
    with tempfile.TemporaryDirectory() as folder:
        profile = pathlib.Path(folder) / "profile"
        tool = ["valgrind", "--tool=callgrind", "--collect-systime=yes", f"--callgrind-out-file={profile}"]
        with started([*tool, *words, *form_words(form)]) as running:
            drive(port, kind, count, form.size)
            if not form.threads:
                running.terminate()
            running.wait(timeout=PATIENCE)
        return totals_of(profile)


@contextlib.contextmanager
def started(words):
    """A program while it is used; it has ended then, by its id."""
    running = subprocess.Popen(words, stdin=subprocess.DEVNULL, stdout=subprocess.DEVNULL, stderr=subprocess.DEVNULL)
    try:
        yield running
    finally:
        if running.poll() is None:
            running.kill()
        running.wait()


def node(program, kind, count, form):
    port = free_port()
    return counted([program, "node", "--listen", f"127.0.0.1:{port}"], port, kind, count, form)


def proxy(program, kind, count, form):
    port, places = free_port(), [free_port(), free_port()]
    pools = {name: {"servers": [f"127.0.0.1:{place}"]} for name, place in zip(("old", "new"), places)}
    start = int(time.time()) - 10 if kind == "delete2" else LATER
    route = {"type": "MigrateRoute", "from": "PoolRoute|old", "to": "PoolRoute|new", "start_time": start, "interval": INTERVAL}
    with tempfile.NamedTemporaryFile("w", suffix=".json") as config, contextlib.ExitStack() as nodes:
        json.dump({"pools": pools, "route": route}, config)
        config.flush()
        for place in places:
            nodes.enter_context(started([program, "node", "--listen", f"127.0.0.1:{place}", "--forever", "--loops", "1", "--quiet"]))
            connect(place).close()
        words = [program, "proxy", "--listen", f"127.0.0.1:{port}", "--config", config.name]
        return counted(words, port, kind, count, form)


SERVICES = {"node": node, "proxy": proxy}


def count(program, service, kind, form=Form()):
    """What one request takes."""
    few, many = (SERVICES[service](program, kind, number, form) for number in (FEW, MANY))
    return Counts(*((more - less) / (MANY - FEW) for less, more in zip(few, many)))
