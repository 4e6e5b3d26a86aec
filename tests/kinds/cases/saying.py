"""What a service says of what happens is what happened: a line of each kind, and one a second at most."""
import datetime
import hashlib
import json
import pathlib
import re
import time

from beside import told_node, wait_until
from client import LOST, MISS, get_of
from fake import FakeNode
from fleet import Fleet
from peers import Silent
from ports import place_at
from running import case
from wanted import check, check_true

LINE = re.compile(r"(\d{4}-\d\d-\d\dT\d\d:\d\d:\d\dZ) (.*)")


class Said:
    """The lines that a service has said."""

    def __init__(self, service):
        self.service = service

    def lines(self):
        """What was said so far: the time of each whole line and its text."""
        text = self.service.printed()[1].decode()
        return [LINE.fullmatch(line).groups() for line in text.splitlines(keepends=False)] if text.endswith("\n") else []

    def wait_for(self, text, behind=0):
        """Waits until a line begins so behind so many lines."""
        return wait_until(f"a line {text!r} in {self.lines()}", lambda: any(it.startswith(text) for _, it in self.lines()[behind:]), 10)


def answering_once(link):
    """Answers one get, and then what is none."""
    if link.request():
        link.send(MISS)
        if link.request():
            link.send(b"huh\r\n")


class Talking:
    """A proxy of one loop before four pools, of which one node is strange, one silent and one away, through which its clock leads it;
    and what it says."""

    def __init__(self, fleet):
        self.node, self.strange, self.silent = told_node(fleet), fleet.keep(FakeNode(answering_once)), fleet.keep(Silent())
        self.away = fleet.keep(place_at("127.0.0.1")).address()
        self.start = int(time.time()) + 5000
        pools = [[it] for it in (self.node.address, self.strange.address, self.silent.address, self.away)]
        self.config = fleet.chain_config(pools, [self.start + 1000 * hop for hop in range(3)], 100, "sum")
        self.clock = fleet.clock()
        words = ["proxy", "--config", str(self.config), "--forever", "--loops", "1", "--max-clients", "2", "--leg-timeout", "500"]
        self.proxy = fleet.serve(*words, clock=self.clock, left_open=False)
        self.said = Said(self.proxy)
        self.client = self.proxy.client()

    def happens(self, text, does):
        """Once something is done a line says so."""
        behind = len(self.said.lines())
        time.sleep(1.1)  # since the last line of its kind
        does()
        self.said.wait_for(text, behind)

    def lose(self):
        """A get is lost."""
        self.client.ask(get_of("k"), LOST)

    def go_to(self, second):
        """Sets its clock."""
        self.clock.move(second - int(time.time()))

    def begin(self, version):
        """What it says at first."""
        value = json.dumps(json.loads(pathlib.Path(self.config).read_bytes()), sort_keys=True, separators=(",", ":"))
        digest = hashlib.sha256(value.encode()).hexdigest()
        self.said.wait_for(f"listens at {self.proxy.address}, loops 1, configuration {digest}, version {version}")
        self.said.wait_for("the clock is in phase old-only of hop 0")
        self.said.wait_for(f"link to {self.away} of pool 3 is down: it can't be reached")
        self.client.ask(get_of("k"), MISS)

    def enter_all(self):
        """Each phase is said, and in its time why a link goes down."""
        for hop in range(3):
            for phase, passed in (("both-read-old", 0), ("both-read-new", 100), ("new-only", 200)):
                second = self.start + 1000 * hop + passed + 5
                self.happens(f"the clock is in phase {phase} of hop {hop}", lambda second=second: self.go_to(second))
            if hop == 0:
                self.client.ask(get_of("k"), MISS)
                self.happens(f"link to {self.strange.address} of pool 1 is down: it sent what is no reply", self.lose)
            if hop == 1:
                self.happens(f"link to {self.silent.address} of pool 2 is down: it was silent for too long", self.lose)

    def second_of(self, text):
        """The time of the first line that has a text."""
        moment = next(moment for moment, line in self.said.lines() if text in line)
        return datetime.datetime.strptime(moment, "%Y-%m-%dT%H:%M:%SZ").replace(tzinfo=datetime.UTC).timestamp()


@case(waits=True)
def what_a_proxy_says_is_what_happened():
    """Where it listens, each phase that its clock enters, a clock that goes back, links that come up and go down and why, clients that
    wait: by the time of its clock."""
    with Fleet() as fleet:
        it = Talking(fleet)
        it.begin(fleet.run("--version")[1].decode().split()[-1])
        it.happens(f"link to {it.node.address} of pool 0 is down: ", it.node.kill)
        it.happens(f"link to {it.node.address} of pool 0 is up", it.node.begin_again)
        it.enter_all()
        it.happens("new clients wait: 2 are served, as many as may be", it.proxy.client)
        it.happens("the clock went back from ", lambda: (it.go_to(it.start), it.lose()))
        check_true("the first line has the time of its clock", abs(it.second_of("listens") - time.time()) < 120)
        entered = it.second_of("both-read-old of hop 1") - it.start
        check_true(f"that a phase that began {entered} seconds behind the start has the time of its clock", 1000 <= entered <= 1060)
        check("what it says on the other output", b"", it.proxy.printed()[0])


def ending_at_first(link):
    """Ends each of a few connections at once, and keeps later ones."""
    while link.number >= ENDED and link.request():
        pass


ENDED = 6  # connections that a node ends


@case(waits=True)
def a_proxy_says_a_line_of_a_kind_a_second_at_most():
    """Of ten nodes that end their first connections at once: the lines say how many more there were, so that all of them are told. A
    quiet one says nothing."""
    with Fleet() as fleet:
        nodes = [fleet.keep(FakeNode(ending_at_first)) for _ in range(10)]
        config = fleet.config([it.address for it in nodes], fleet.nodes(1))
        words = ("proxy", "--config", str(config), "--forever", "--loops", "2")
        said = Said(fleet.serve(*words, left_open=False))

        def counted(text):
            lines = [line for line in said.lines() if f" {text}" in line[1]]
            more = sum(int((re.search(r" \((\d+) more\)$", line) or [0, 0])[1]) for _, line in lines)
            return len(lines) + more, [moment for moment, _ in lines]

        ups = len(nodes) * (ENDED + 2) + 2
        wait_until("all links that came up are said", lambda: counted("is up")[0] >= ups)
        time.sleep(1.5)
        for text, wanted in (("is up", ups), ("is down: it ended the connection", len(nodes) * ENDED)):
            count, moments = counted(text)
            check(f"how often it {text}", wanted, count)
            check(f"lines of one second that {text}", sorted(set(moments)), sorted(moments))
        quiet = fleet.serve(*words, "--quiet", left_open=False)
        wait_until("its links", lambda: all(len(it.links) >= ENDED + 4 for it in nodes))
        check("what a quiet one says", (b"", b""), quiet.printed())
