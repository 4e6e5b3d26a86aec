"""Proxies and nodes on loops that run for one case, and the nodes before which proxies run."""
import functools
import os
import pathlib
import resource
import shutil
import signal
import socket
import subprocess
import tempfile
import threading
import time

from children import CHILDREN
from client import MISS, NOT_FOUND, DELETED, PATIENCE, STORED, Client, hits
from fake import FakeNode
from ports import is_listened_at, place_at
from wanted import Wrong, check

ROOT = pathlib.Path(__file__).resolve().parent.parent.parent
BUILT = ROOT / "crates/mr_test_driver/out/mr_test_driver"
YEAR_2100 = 4102444800  # the start of a migration that no case sees begin
HOME = tempfile.mkdtemp(prefix="driver-live-")  # of the files of all cases, until the run ends
SANITIZED = "quarantine_size_mb=0:thread_local_quarantine_size_kb=0"


@functools.lru_cache(maxsize=None)
def program():
    """The program."""
    os.environ.setdefault("MALLOC_ARENA_MAX", str(2 * os.cpu_count()))
    if "DRIVER_UNPROVED" in os.environ:
        os.environ.setdefault("ASAN_OPTIONS", SANITIZED)
    found = pathlib.Path(os.environ.get("DRIVER", BUILT)).resolve()
    if not os.access(found, os.X_OK):
        raise SystemExit(f"there is no program {found}: `rt run` in crates/mr_test_driver makes it")
    return str(found)


def remove_home():
    """Removes the files of all cases."""
    shutil.rmtree(HOME, ignore_errors=True)


class StoreNode(FakeNode):
    """A node that keeps what it is sent, as memcached does, and notes each request's line."""

    def __init__(self):
        self.lock = threading.Lock()
        self.items = {}
        self.lines = []
        super().__init__(self.serve_requests)

    def serve_requests(self, link):
        """Answers all requests of a link, each as soon as it came."""
        while True:
            request = link.request()
            if not request:
                return
            link.send(self.answer(request))

    def answer(self, request):
        """The answer to one request."""
        line, _, block = request.partition(b"\r\n")
        words = line.split()
        with self.lock:
            self.lines.append((time.time(), line))
            if words[0] == b"set":
                self.items[words[1]] = (block[:-2], int(words[2]))
                return STORED
            if words[0] == b"delete":
                return NOT_FOUND if self.items.pop(words[1], None) is None else DELETED
            found = [(key, *self.items[key]) for key in words[1:] if key in self.items]
        return hits(*found)

    def asked(self, command):
        """The words of the requests of this command, in order."""
        with self.lock:
            return [line.split() for _, line in self.lines if line.startswith(command)]


class Told:
    """What the loops of a proxy or a node tell of themselves: their counts; those of a proxy's links to each node; and what a node's
    loops did for clients, and its cache holds."""

    def __init__(self, lines):
        def pairs_in(head):
            return [pairs_of(line.split()[len(head.split()) :]) for line in lines if line.startswith(head)]

        self.counts = pairs_in("told ")[0]
        self.nodes = [pairs_of(line.split()[2:]) for line in lines if line.startswith("node ")]
        self.done = next(iter(pairs_in("done ")), None)
        self.cache = next(iter(pairs_in("cache ")), None)


def pairs_of(words):
    """The numbers that stand behind their names."""
    return dict(zip(words[::2], map(int, words[1::2])))


class Service:
    """A proxy or a node on loops that runs, with so many open files. Some words may stand before those of the program."""

    def __init__(self, kind, words, files, asks, before):
        self.kind = kind
        self.place = place_at("127.0.0.1")
        self.address = self.place.address()
        self.output = pathlib.Path(HOME, f"output-{self.place.port}")
        self.faults = pathlib.Path(HOME, f"faults-{self.place.port}")
        with open(self.output, "wb") as output, open(self.faults, "wb") as faults:
            self.child = CHILDREN.start(
                [*before, program(), kind, self.address, *map(str, words)],
                stdin=subprocess.PIPE if asks else subprocess.DEVNULL, stdout=output, stderr=faults,
                preexec_fn=lambda: resource.setrlimit(resource.RLIMIT_NOFILE, (files, files)),
            )
        self.clients = []
        self.questions = 0
        self.heard = []  # what happened to its loops, as far as it was asked

    def __enter__(self):
        until = time.monotonic() + PATIENCE
        while not is_listened_at(self.address):
            if self.child.poll() is not None or time.monotonic() > until:
                self.close()
                raise Wrong(f"the start of a {self.kind}", "something that listens", self.faults.read_bytes())
            time.sleep(0.005)
        return self

    def __exit__(self, kind, error, trace):
        faults = self.close()
        if kind is None:
            check(f"what a {self.kind} writes on standard error", b"", faults)

    def close(self):
        """Ends it, and gives what it wrote on standard error."""
        for it in self.clients:
            it.close()
        CHILDREN.end(self.child)
        if self.child.stdin:
            self.child.stdin.close()
        self.place.close()
        return self.faults.read_bytes()

    def client(self, little_room=False):
        """A connection to it."""
        self.clients.append(Client(self.address, little_room))
        return self.clients[-1]

    def ask(self, request, wanted):
        """Asks over a connection of its own."""
        with Client(self.address) as client:
            client.ask(request, wanted)

    def ask_until(self, request, wanted, patience=PATIENCE):
        """Asks again and again, until this is the answer. Gives how long that took."""
        begun = time.monotonic()
        while True:
            try:
                self.ask(request, wanted)
                return time.monotonic() - begun
            except Wrong:
                if time.monotonic() - begun > patience:
                    raise
                time.sleep(0.02)

    def expect_served(self, count):
        """It ends by itself, and says that so many clients ended without a fault."""
        try:
            status = self.child.wait(PATIENCE)
        except subprocess.TimeoutExpired:
            raise Wrong(f"the end of a {self.kind}", "an end by itself", "it runs") from None
        check(f"what a {self.kind} says in the end", (0, b"served %d\n" % count), (status, self.output.read_bytes()))

    def answer(self, number):
        """The lines of the answer to the question of this number, from 0. None where it isn't whole yet."""
        lines = []
        for line in self.output.read_text().splitlines(keepends=True):
            lines.append(line)
            if line.startswith("told ") and line.endswith("\n"):
                if number == 0:
                    return lines
                number -= 1
                lines = []
        return None

    def tell(self):
        """What its loops tell of themselves now. What was heard of them since the last time is kept as well."""
        self.child.stdin.write(b"?\n")
        self.child.stdin.flush()
        until = time.monotonic() + PATIENCE
        while (lines := self.answer(self.questions)) is None:
            if time.monotonic() > until:
                raise Wrong("what loops tell", f"answer {self.questions}", self.output.read_text())
            time.sleep(0.005)
        self.questions += 1
        self.heard += [line[len("heard ") :].strip() for line in lines if line.startswith("heard ")]
        return Told(lines)

    def hear(self, event):
        """Asks its loops until this has happened, which may have been before."""
        until = time.monotonic() + PATIENCE
        while event not in self.heard:
            if time.monotonic() > until:
                raise Wrong("what is heard of loops", event, str(self.heard))
            self.tell()
            time.sleep(0.01)

    def heard_of(self, node):
        """What was heard of the links to a node."""
        return [it for it in self.heard if it.startswith((f"LinkUp({node})", f"LinkDown({node},"))]

    def limit_memory(self, more):
        """It may take so many bytes more than now, or as many as it likes."""
        limit = resource.RLIM_INFINITY if more is None else self.status("VmSize") * 1024 + more
        resource.prlimit(self.child.pid, resource.RLIMIT_AS, (limit, resource.RLIM_INFINITY))

    def stop(self):
        """Stops it where it stands, each of its threads."""
        os.kill(self.child.pid, signal.SIGSTOP)
        until = time.monotonic() + PATIENCE
        while not all(state == "T" for state in self.states()):
            if time.monotonic() > until:
                raise Wrong(f"the states of a {self.kind} that is stopped", "T", self.states())
            time.sleep(0.005)

    def go_on(self):
        """Has it go on."""
        os.kill(self.child.pid, signal.SIGCONT)

    def states(self):
        """The states of its threads, a letter each, as the system tells them."""
        texts = [it.read_text(encoding="ascii") for it in pathlib.Path(f"/proc/{self.child.pid}/task").glob("*/stat")]
        return [text.rsplit(")", 1)[1].split()[0] for text in texts]

    def open_files(self):
        """How many files it has open."""
        return len(os.listdir(f"/proc/{self.child.pid}/fd"))

    def status(self, name):
        """A number of its status, as the system tells it."""
        with open(f"/proc/{self.child.pid}/status", encoding="ascii") as lines:
            return next(int(line.split()[1]) for line in lines if line.startswith(name + ":"))

    def processor_seconds(self):
        """The processor time that it took so far."""
        with open(f"/proc/{self.child.pid}/stat", encoding="ascii") as text:
            words = text.read().rsplit(")", 1)[1].split()
        return (int(words[11]) + int(words[12])) / os.sysconf("SC_CLK_TCK")


class Proxy(Service):
    """A proxy on loops. What isn't said has no bound, but for open files; and no migration begins."""

    def __init__(self, old, new=("127.0.0.1:1",), loops=1, clients=0, most_clients=0, room=4096, start=YEAR_2100, interval=60,
                 leg_millis=0, client_seconds=0, most_legs=4096, most_unread=1 << 20, files=64, asks=False, before=()):
        words = [loops, clients, most_clients, room, start, interval, leg_millis, client_seconds, most_legs, most_unread]
        super().__init__("proxy", [*words, ",".join(old), ",".join(new)], files, asks, before)


class Node(Service):
    """A node on loops, which share one cache. What isn't said has no bound, but for open files and unread bytes."""

    def __init__(self, loops=1, clients=0, most_clients=0, capacity=1 << 20, client_seconds=0, most_unread=1 << 20, files=64, asks=False,
                 before=()):
        words = [loops, clients, most_clients, capacity, client_seconds, most_unread]
        super().__init__("node", words, files, asks, before)


class Memcached:
    """A memcached that runs."""

    def __init__(self):
        self.place = place_at("127.0.0.1")
        self.address = self.place.address()
        words = ["-l", "127.0.0.1", "-p", str(self.place.port), "-U", "0", "-m", "256", "-I", "4m", "-t", "1", "-u", "root"]
        self.place.close()
        self.child = CHILDREN.start(
            [shutil.which("memcached"), *words], stdin=subprocess.DEVNULL, stdout=subprocess.DEVNULL, stderr=subprocess.DEVNULL
        )
        until = time.monotonic() + PATIENCE
        while not is_listened_at(self.address):
            if time.monotonic() > until:
                raise Wrong("the start of memcached", "something that listens", "nothing")
            time.sleep(0.01)

    def stop(self):
        """Stops it where it stands."""
        os.kill(self.child.pid, signal.SIGSTOP)

    def go_on(self):
        """Has it go on."""
        os.kill(self.child.pid, signal.SIGCONT)

    def close(self):
        """Ends it."""
        CHILDREN.end(self.child)


def some_node():
    """A memcached where one is installed, and else a node of the tests."""
    return Memcached() if shutil.which("memcached") else StoreNode()


def begins_late(stream):
    """From now on the system of this end waits before it acknowledges what comes."""
    stream.setsockopt(socket.IPPROTO_TCP, socket.TCP_QUICKACK, 0)
