"""The command that asks proxies as their clients do: what it finds of ours, and of fakes that bring back what was deleted."""
import contextlib
import json
import os
import pty
import re
import shutil
import signal
import subprocess
import threading
import time

from cases.silence import check_took
from cases.watching import INTERVAL, PHASES, Watched, found, watch
from children import CHILDREN
from client import DELETED, ERROR, MISS, NOT_FOUND, PATIENCE, STORED, hits
from fake import FakeNode, FullQueue
from fleet import Fleet
from moments import within
from placing import place_of
from ports import is_listened_at, place_at
from running import case
from wanted import check, check_true

LEAD = 6  # seconds until a migration begins that a canary sees, in which all that it needs is started
PREFIX = "migctl-canary-"
EXPIRY = b"3600"  # of each value, in seconds
TIME = r"(-|over 5000 ms|[\d.]+ ms)"
SECOND = re.compile(
    r"second (\d+) ([a-z-]+) of hop (\d+): (\d+) requests?, (\d+) hits?, (\d+) miss(?:es)?, median %s, greatest %s"
    r"(?:, errors (\d+): (.*?))?(?:, came back (\d+))?" % (TIME, TIME)
)
VERDICT = re.compile(
    r"(?:nothing that was deleted came back|what was deleted came back ([\d,]+) times?): "
    r"([\d,]+) requests? at (\d+) prox(?:y|ies), ([\d,]+) deletes? acknowledged"
)
HEAD = " hop  phase              requests   hits %     p50 ms     p99 ms        max ms"
DEED = re.compile(r"  (set|delete|get) +at (\S+), second (\d+)\.(\d{6}), (\S+) of hop (\d+)")


def number(text):
    """A number with commas between its thousands; 0 where there is none."""
    return int((text or "0").replace(",", ""))


class Second:
    """What a line of a second says."""

    def __init__(self, match):
        self.at, self.phase = int(match[1]), match[2]
        self.requests, self.hits, self.misses = (int(match[place]) for place in (4, 5, 6))
        self.median, self.greatest = match[7], match[8]
        self.errors = {text: int(count) for count, text in (it.split(" ", 1) for it in (match[10] or "").split(", ") if it)}
        check("the sum of the errors", number(match[9]), sum(self.errors.values()))
        self.came_back = number(match[11])


class Flight:
    """What a canary printed in lines."""

    def __init__(self, lines):
        self.seconds, self.told, rest = [], [], list(lines)
        while rest and not rest[0].startswith(" "):
            line = rest.pop(0)
            if line.startswith("came back: "):
                deeds = [DEED.fullmatch(rest.pop(0)) for _ in range(3)]
                check("what is told of what came back", ["set", "delete", "get"], [it and it[1] for it in deeds])
                self.told.append((line.removeprefix("came back: "), [(it[2], float(f"{it[3]}.{it[4]}"), it[5]) for it in deeds]))
            else:
                match = SECOND.fullmatch(line)
                check_true(f"that {line!r} tells of a second", match)
                self.seconds.append(Second(match))
        check("the head of the table", HEAD, rest and rest.pop(0))
        verdict = next((place for place, line in enumerate(rest) if VERDICT.fullmatch(line)), len(rest))
        self.rows, self.verdict, self.left = rest[:verdict], (rest[verdict : verdict + 1] or ["no verdict"])[0], rest[verdict + 1 :]
        words = VERDICT.fullmatch(self.verdict)
        check_true(f"that {lines} have a verdict", words)
        self.came_back, self.requests, self.proxies, self.acknowledged = map(number, words.groups())
        self.check_sums()

    def check_sums(self):
        """The table and the verdict count what the seconds do."""
        check("the columns of the table", {78}, {len(row) for row in self.rows})
        for name in ("requests", "came_back"):
            check(f"{name} of all seconds", getattr(self, name), sum(getattr(it, name) for it in self.seconds))
        check("requests by the table", self.requests, sum(number(row.split()[2]) for row in self.rows))

    def errors(self):
        """How many errors of each kind there were."""
        counts = {}
        for it in self.seconds:
            for text, count in it.errors.items():
                counts[text] = counts.get(text, 0) + count
        return counts

    def phases(self):
        """The phases that it told, each once."""
        told = [it.phase for it in self.seconds]
        return [it for place, it in enumerate(told) if it not in told[:place]]


def canary(fleet, config, *words):
    """What a canary gives: its status, its lines, and what stands on standard error."""
    status, output, faults = fleet.run("canary", "--config", config, *words)
    return status, output.decode().splitlines(), faults


def flown(fleet, config, *words, wanted=0):
    """What a canary printed that went through all of its seconds, and ended so."""
    status, lines, faults = canary(fleet, config, *words)
    check("its status", (wanted, b""), (status, faults))
    return Flight(lines)


def unasked(fleet):
    """A configuration of nodes that nothing asks, since its proxies are fakes. Its migration is far away."""
    return fleet.config(["127.0.0.1:7001"], ["127.0.0.1:7002"])


def key_of(request):
    """The key of a request."""
    return request.split()[1].decode()


def block_of(request):
    """The data of a set."""
    return request.split(b"\r\n")[1]


class Asked:
    """A request that a proxy that is a fake was asked, and when, by the machine's clock."""

    def __init__(self, address, request):
        self.address, self.request, self.at = address, request, time.time()
        self.command, self.key = request.split()[0].decode(), key_of(request)

    def is_told_by(self, deed):
        """Whether this is what is told of it: it was issued where it came, and not later."""
        address, second, _ = deed
        return address == self.address and self.at - 2 < second < self.at + 0.05


class Memory:
    """What proxies that are fakes hold in common, and what they were asked. Where it brings back, a get of a deleted key is answered by
    the value that the delete took away; and it may do no deletes."""

    def __init__(self, brings_back=False, deletes=True):
        self.brings_back, self.deletes = brings_back, deletes
        self.lock = threading.Lock()
        self.held, self.dropped, self.requests, self.back = {}, {}, [], []

    def answer(self, link, request):
        """The answer to a request, as a memcached gives it."""
        with self.lock:
            asked = Asked("%s:%d" % link.stream.getsockname(), request)
            self.requests.append(asked)
            return self.answer_to(asked)

    def answer_to(self, asked):
        if asked.command == "set":
            self.held[asked.key] = asked
            return STORED
        if asked.command == "delete" and self.deletes:
            if asked.key not in self.held:
                return NOT_FOUND
            self.dropped[asked.key] = self.held.pop(asked.key)
            return DELETED
        if asked.command == "get":
            kept = self.held.get(asked.key)
            if not kept and self.brings_back and (kept := self.dropped.get(asked.key)):
                self.back.append((kept, asked))
            return hits((asked.key, block_of(kept.request))) if kept else MISS
        return ERROR

    def serve(self, link):
        """Serves one connection."""
        while request := link.request():
            link.send(self.answer(link, request))

    def asked(self, command):
        """The requests of this command."""
        with self.lock:
            return [it for it in self.requests if it.command == command]

    def at(self, address):
        """The requests that came to the proxy at this address."""
        with self.lock:
            return [it for it in self.requests if it.address == address]

    def keys(self):
        """The keys that it was asked for."""
        with self.lock:
            return {it.key for it in self.requests}

    def runs(self):
        """What these keys begin with."""
        return {key.rsplit("-", 1)[0] for key in self.keys()}

    def has_brought_back(self, key, deeds):
        """Whether it did what is told of this key: it answered a get by the value of a set, and was asked for a delete in between."""
        told_set, told_delete, told_get = deeds
        return any(
            kept.key == key
            and kept.is_told_by(told_set)
            and get.is_told_by(told_get)
            and any(it.key == key and it.is_told_by(told_delete) and kept.at <= it.at <= get.at for it in self.asked("delete"))
            for kept, get in list(self.back)
        )


def fakes(fleet, memory, count=2):
    """The addresses of so many proxies that are fakes over one memory."""
    return [fleet.keep(FakeNode(memory.serve)).address for _ in range(count)]


def away(fleet):
    """A place where nobody is."""
    return fleet.keep(place_at("127.0.0.1"))


def come(fleet, place, memory):
    """A proxy that is a fake comes up there."""
    fleet.keep(FakeNode(memory.serve, port=place.port))


@contextlib.contextmanager
def ended_in_time(child):
    """Ends a canary after twice the patience of a case, so that its output ends."""
    timer = threading.Timer(2 * PATIENCE, CHILDREN.end, [child])
    timer.start()
    try:
        yield
    finally:
        timer.cancel()


def phase_at(start, second):
    """The phase at a second, by a schedule with this start."""
    return PHASES[max(0, min((int(second) - start) // INTERVAL + 1, 3))]


@case(waits=True)
def a_canary_finds_nothing_at_proxies_whose_clocks_are_as_far_apart_as_they_may_be():
    """One of them runs by threads, one on loops. It tells all four phases, and its table has a row for each."""
    with Fleet() as fleet:
        start = int(time.time()) + LEAD
        with within(LEAD - 3):
            config = fleet.config([fleet.node()], [fleet.node()], start, INTERVAL)
            ahead = fleet.clock(INTERVAL)
            proxies = [fleet.proxy_by_threads(config).address, fleet.proxy_on_loops(config, clock=ahead).address]
        flight = flown(fleet, config, "--seconds", "12", "--rate", "500", *proxies)
        check("the phases that it went through", list(PHASES), flight.phases())
        check("and the phase of each second", [phase_at(start, it.at) for it in flight.seconds], [it.phase for it in flight.seconds])
        check("the rows of its table", [["0", it] for it in PHASES], [row.split()[:2] for row in flight.rows])
        check("what came back, at how many proxies", (0, 2), (flight.came_back, flight.proxies))
        check("errors, and keys that are left", ({}, []), (flight.errors(), flight.left))
        check_true(f"that {flight.requests} requests are many", 1000 <= flight.requests <= 12 * 525 + 100)
        check_true("that there were hits", sum(it.hits for it in flight.seconds) > 100)
        check_true("and misses", sum(it.misses for it in flight.seconds) > 100)


@case(waits=True)
def a_canary_convicts_proxies_whose_clocks_are_apart():
    """By nine seconds, where two are allowed, which `watch` says too: a value comes back from the old pool, or from the new one."""
    with Fleet() as fleet:
        start = int(time.time()) + LEAD
        with within(LEAD - 2):
            fleet_of = Watched(fleet, start, clock=fleet.clock(9))
            proxies = [it.service.address for it in fleet_of.proxies]
        flight = flown(fleet, fleet_of.config, "--seconds", "6", "--keys", "16", *proxies, wanted=1)
        check_true("that something came back, and is told", flight.came_back >= len(flight.told) > 0)
        for key, deeds in flight.told:
            check_true(f"that {key} is its own", key.startswith(PREFIX))
            check_true(f"that {deeds} are at its proxies", all(it[0] in proxies for it in deeds))
            check_true(f"that the times of {deeds} rise", deeds == sorted(deeds, key=lambda it: it[1]))
            check("their phases", [phase_at(start, it[1]) for it in deeds], [it[2] for it in deeds])
        status, lines, _ = watch(fleet, fleet_of.config, "--once", *fleet_of.addresses())
        check("what watch finds of the clocks", (1, "broken"), (status, found(lines)["clocks near"]))


def told_in_objects(lines):
    """What these objects tell of what came back, and how often that was."""
    *objects, last = map(json.loads, lines)
    told = []
    for it in objects:
        if "at" not in it:
            deeds = [it["came_back"][name] for name in ("set", "delete", "get")]
            told.append((it["came_back"]["key"], [(deed["proxy"], deed["second"] + deed["micros"] / 1e6, deed["phase"]) for deed in deeds]))
    return told, last["verdict"]["came_back"]


@case(waits=True)
def a_canary_convicts_fakes_that_bring_back():
    """By the set, the delete and the get that it was each time, in lines and in objects."""
    with Fleet() as fleet:
        for form in ((), ("--json",)):
            memory = Memory(brings_back=True)
            words = ("--seconds", "3", "--rate", "60", "--keys", "8", *form, *fakes(fleet, memory))
            status, lines, faults = canary(fleet, unasked(fleet), *words)
            check("its status", (1, b""), (status, faults))
            told, came_back = told_in_objects(lines) if form else (Flight(lines).told, Flight(lines).came_back)
            check("what is told", came_back, len(told))
            check_true(f"that {came_back} of {len(memory.back)} convict", 0 < len(memory.back) / 2 <= came_back <= len(memory.back))
            for key, deeds in told:
                check_true(f"that {key} came back so: {deeds}", memory.has_brought_back(key, deeds))
                check("the phases", {"old-only"}, {it[2] for it in deeds})


@case(waits=True)
def a_canary_finds_nothing_at_fakes_that_forget():
    """What it asks of them: its keys share a prefix and the number of the run, no value is like another, each expires in an hour, and in
    the end each key is deleted that was set."""
    with Fleet() as fleet:
        memory = Memory()
        proxies = [fleet.keep(FakeNode(memory.serve)) for _ in range(2)]
        begun = time.monotonic()
        flight = flown(fleet, unasked(fleet), "--seconds", "3", "--keys", "8", "--clients", "3", *[it.address for it in proxies])
        check_took("it ended", begun, 3, 7.5)
        check("what came back", 0, flight.came_back)
        check("requests", len(memory.requests), flight.requests)
        check("acknowledged deletes", len(memory.asked("delete")), flight.acknowledged)
        check("its keys, of one run", (8, 1), (len(memory.keys()), len(memory.runs())))
        check_true("their prefix", all(re.fullmatch(PREFIX + r"[0-9a-f]{16}-\d+", key) for key in memory.keys()))
        sets = [it.request for it in memory.asked("set")]
        check("values that are like another", len(sets), len({block_of(it) for it in sets}))
        check("their expiry", {EXPIRY}, {it.split()[3] for it in sets})
        check("what is left", [], list(memory.held))
        check("connections to each proxy", [3, 3], [len(it.links) for it in proxies])


@case(waits=True)
def two_canaries_at_once_have_keys_of_their_own():
    """Before the same proxies, with one prefix."""
    with Fleet() as fleet:
        config, memory = unasked(fleet), Memory()
        words = ["canary", "--config", config, "--prefix", "mine:", "--seconds", "3", *fakes(fleet, memory)]
        both = [fleet.start_command(*words, stdin=subprocess.DEVNULL) for _ in range(2)]
        flights = [Flight(it.communicate(timeout=PATIENCE)[0].decode().splitlines()) for it in both]
        check("their statuses", [0, 0], [it.returncode for it in both])
        check("the runs of their keys", 2, len(memory.runs()))
        check_true("their prefix", all(key.startswith("mine:") for key in memory.keys()))
        check("all that was asked", len(memory.requests), sum(it.requests for it in flights))
        check("errors, and what is left", ([{}, {}], []), ([it.errors() for it in flights], list(memory.held)))


@case(waits=True)
def a_canary_has_keys_at_each_node_of_each_pool():
    with Fleet() as fleet:
        pools = [[f"127.0.0.1:{port}" for port in range(first, first + count)] for first, count in ((7001, 5), (7101, 7))]
        memory = Memory()
        flown(fleet, fleet.config(*pools), "--seconds", "3", "--keys", "2", "--rate", "1000", *fakes(fleet, memory, 1))
        for pool in pools:
            check("the nodes that it has keys at", set(range(len(pool))), {place_of(key, len(pool)) for key in memory.keys()})


@case(waits=True)
def a_canary_asks_no_more_than_its_rate():
    """But for what was late by then, a twentieth of a second's at most, and what its clients wait for; and, as long as it asks, not much
    less."""
    with Fleet() as fleet:
        for rate, seconds in ((20, 3), (300, 3)):
            memory = Memory()
            flown(fleet, unasked(fleet), "--seconds", str(seconds), "--rate", str(rate), "--keys", "4", *fakes(fleet, memory))
            moments = [it.at for it in memory.requests][: -len({it.key for it in memory.asked("set")})]  # the last ones clean up
            most = max((sum(at <= it < at + 1 for it in moments) for at in moments), default=0)
            check_true(f"that {most} requests in a second are at most {rate}", most <= rate * 1.05 + 5)
            check_true(f"that {len(moments)} requests come near {rate} a second", len(moments) >= rate * seconds * 0.7)


@case(waits=True)
def a_canary_tells_a_line_each_second():
    """Also where hardly anything happens: most of them come within a few milliseconds of that."""
    with Fleet() as fleet:
        words = ["canary", "--config", unasked(fleet), "--seconds", "11", "--rate", "1", *fakes(fleet, Memory(), 1)]
        child = fleet.start_command(*words, stdin=subprocess.DEVNULL)
        with ended_in_time(child):
            moments = [time.monotonic() - number for number, line in enumerate(child.stdout) if line.startswith(b"second ")][:-1]
        late = sorted(it - min(moments) for it in moments)
        check_true(f"that most of {[round(it, 4) for it in late]} are next to nothing", len(late) == 11 and late[6] < 0.005)


@case(waits=True)
def a_canary_whose_clocks_give_no_reading_ends():
    with Fleet() as fleet:
        clock, memory = fleet.clock(), Memory()
        proxy, = fakes(fleet, memory, 1)
        child = fleet.start_command("canary", "--config", unasked(fleet), proxy, clock=clock, stdin=subprocess.DEVNULL)
        until = time.monotonic() + PATIENCE
        while not memory.asked("get") and time.monotonic() < until:
            time.sleep(0.05)
        clock.fail_all()
        _, faults = child.communicate(timeout=PATIENCE)
        check("what it says", (1, b"migctl: net %s\n" % proxy.encode()), (child.returncode, faults))


@case(waits=True)
def a_canary_goes_on_where_a_proxy_is_away():
    """And asks it once it has come."""
    with Fleet() as fleet:
        memory, place = Memory(), away(fleet)
        here, = fakes(fleet, memory, 1)
        words = ["canary", "--config", unasked(fleet), "--seconds", "6", place.address(), here]
        child = fleet.start_command(*words, stdin=subprocess.DEVNULL)
        time.sleep(2)
        come(fleet, place, memory)
        flight = Flight(child.communicate(timeout=PATIENCE)[0].decode().splitlines())
        check("its status, and errors", (0, {}), (child.returncode, flight.errors()))
        check("who was asked", {here, place.address()}, {it.address for it in memory.requests})
        check_true("that it asked the other all the while", len(memory.at(here)) > 100)


@case(waits=True)
def a_canary_waits_for_a_proxy_to_come():
    """For five seconds, and says so where none does."""
    with Fleet() as fleet:
        config, memory, place = unasked(fleet), Memory(), away(fleet)
        words = ["canary", "--config", config, "--seconds", "1", away(fleet).address(), place.address()]
        child = fleet.start_command(*words, stdin=subprocess.DEVNULL)
        time.sleep(2)
        come(fleet, place, memory)
        flight = Flight(child.communicate(timeout=PATIENCE)[0].decode().splitlines())
        check_true("that it asked the one that came", child.returncode == 0 and flight.requests == len(memory.requests) > 0)
        places = [away(fleet).address() for _ in range(2)]
        begun = time.monotonic()
        check("what it says", (1, [], b"migctl: net %s\n" % places[0].encode()), canary(fleet, config, *places))
        check_took("it ended", begun, 4.9, 12)


@case(waits=True)
def a_canary_dials_anew_where_a_dial_has_no_answer():
    """Five seconds after it dialled: so it doesn't wait as long as the system would, whose pauses grow."""
    with Fleet() as fleet:
        memory, full = Memory(), fleet.keep(FullQueue())
        here, = fakes(fleet, memory, 1)
        words = ["canary", "--config", unasked(fleet), "--seconds", "14", full.address, here]
        child = fleet.start_command(*words, stdin=subprocess.DEVNULL)
        time.sleep(12.3)  # the system would try again behind the end
        fleet.keep(full.serve(memory.serve))
        flight = Flight(child.communicate(timeout=PATIENCE)[0].decode().splitlines())
        check("its status, and errors", (0, {}), (child.returncode, flight.errors()))
        check_true("that it asked the one that answered no dial at first", memory.at(full.address))


def asked_beside(fleet, memory, talk, *words):
    """What a canary told that asked a proxy of this talk, and a good one over this memory; and the first of the two."""
    bad = fleet.keep(FakeNode(talk))
    flight = flown(fleet, unasked(fleet), *(words or ("--seconds", "2")), bad.address, *fakes(fleet, memory, 1))
    check_true("that the other one was asked all the while", len(memory.asked("get")) > 50)
    return flight, bad


@case(waits=True)
def a_canary_counts_the_errors_that_it_is_told():
    """And asks on over the same connections."""
    texts = (b"SERVER_ERROR busy", b"SERVER_ERROR leg lost", b"SERVER_ERROR it hurts", b"CLIENT_ERROR bad key", b"ERROR")

    def talk(link):
        turn = link.number
        while link.request():
            link.send(texts[turn % len(texts)] + b"\r\n")
            turn += 1

    with Fleet() as fleet:
        flight, bad = asked_beside(fleet, Memory(), talk)
        check("what is told", {"SERVER_ERROR busy", "SERVER_ERROR leg lost", "SERVER_ERROR", "CLIENT_ERROR", "ERROR"}, set(flight.errors()))
        check("connections", 2, len(bad.links))


@case(waits=True)
def a_canary_believes_no_nonsense():
    """Neither a line of something else nor a value that it never set: it dials anew."""
    memory = Memory()

    def talk(link):
        while request := link.request():
            if link.number % 2:
                link.send(b"VALUE of money\r\n")
            else:
                answer = memory.answer(link, request)
                link.send(hits((key_of(request), "0" * 84)) if request.startswith(b"get") else answer)

    with Fleet() as fleet:
        flight, bad = asked_beside(fleet, memory, talk)
        check("what is told", {"no reply to it"}, set(flight.errors()))
        check_true("that it dialled anew", len(bad.links) > 2)


@case(waits=True)
def a_canary_counts_connections_that_break_off():
    """And dials anew."""
    with Fleet() as fleet:
        flight, bad = asked_beside(fleet, Memory(), lambda link: link.request())
        check("what is told", {"broke off"}, set(flight.errors()))
        check_true("that it dialled anew", len(bad.links) > 2)


@case(waits=True)
def a_canary_waits_five_seconds_for_a_silent_proxy():
    """Each of its clients is asked, given up, and dials anew."""

    def talk(link):
        while link.request():
            pass

    with Fleet() as fleet:
        flight, bad = asked_beside(fleet, Memory(), talk, "--seconds", "8")
        check("what is told", {"silent"}, set(flight.errors()))
        check_true(f"that of {flight.errors()} each client has one or two", 2 <= flight.errors()["silent"] <= 4)
        first = next(place for place, it in enumerate(flight.seconds) if it.errors)
        check_true(f"that it had {first} seconds", 4 <= first <= 7)
        check_true("that it dialled anew", 2 < len(bad.links) <= 6)


@case(waits=True)
def a_canary_reads_replies_in_any_pieces():
    memory = Memory()

    def talk(link):
        while request := link.request():
            for byte in memory.answer(link, request):
                link.send(bytes([byte]))

    with Fleet() as fleet:
        flight = flown(fleet, unasked(fleet), "--seconds", "2", "--rate", "100", fleet.keep(FakeNode(talk)).address)
        check("errors, and requests", ({}, len(memory.requests)), (flight.errors(), flight.requests))


@case(waits=True)
def a_canary_waits_for_its_last_deletes():
    """At a proxy that takes its time, of which the median and the greatest time tell."""
    memory = Memory()

    def talk(link):
        while request := link.request():
            answer = memory.answer(link, request)
            time.sleep(0.3)
            link.send(answer)

    with Fleet() as fleet:
        words = ("--seconds", "4", "--keys", "16", "--clients", "4", fleet.keep(FakeNode(talk)).address)
        flight = flown(fleet, unasked(fleet), *words)
        check("errors, and keys that are left", ({}, [], []), (flight.errors(), flight.left, list(memory.held)))
        for it in flight.seconds[1:-1]:
            check_true(f"that {it.greatest} is more than 300 ms", float(it.greatest.removesuffix(" ms")) >= 300)
            check_true(f"that {it.median} is a bound above that", it.median in ("500 ms", "1000 ms", "2500 ms"))


@case(waits=True)
def a_canary_says_how_many_keys_it_could_not_delete():
    with Fleet() as fleet:
        memory = Memory(deletes=False)
        flight = flown(fleet, unasked(fleet), "--seconds", "2", "--keys", "16", *fakes(fleet, memory))
        check("what it says", [f"{len(memory.held)} keys weren't deleted: they expire within an hour"], flight.left)
        check("acknowledged deletes", 0, flight.acknowledged)


def start_other(fleet, place, *words):
    """Starts another program, which listens at a place that was kept for it, and gives that."""
    place.close()
    fleet.commands.append(CHILDREN.start(words, stdin=subprocess.DEVNULL, stdout=subprocess.DEVNULL, stderr=subprocess.DEVNULL))
    until = time.monotonic() + PATIENCE
    while not is_listened_at(place.address()):
        check_true(f"that {words[0]} listens", time.monotonic() < until)
        time.sleep(0.01)
    return place.address()


@case(waits=True)
def a_canary_asks_memcached_and_twemproxy():
    """The latter leads to the former. Without an installed memcached nothing is played here, without a twemproxy that alone."""
    memcached, nutcracker = shutil.which("memcached"), shutil.which("nutcracker")
    if not memcached:
        return
    with Fleet() as fleet:
        place = place_at("127.0.0.1")
        proxies = [start_other(fleet, place, memcached, "-l", "127.0.0.1", "-p", str(place.port), "-U", "0", "-u", "root")]
        if nutcracker:
            place, stats = place_at("127.0.0.1"), place_at("127.0.0.1")
            stats.close()
            pool = ("hash: fnv1a_32", "distribution: modula", f"listen: {place.address()}", "servers:", f" - {proxies[0]}:1")
            file = fleet.new_file("".join(f"{line}\n" for line in ("pool:", *(f"  {it}" for it in pool))).encode())
            words = ("-c", file, "-o", fleet.new_file(), "-a", "127.0.0.1", "-s", str(stats.port))
            proxies.append(start_other(fleet, place, nutcracker, *words))
        flight = flown(fleet, fleet.config(proxies[:1]), "--seconds", "3", *proxies)
        check("what came back, errors, what is left", (0, {}, []), (flight.came_back, flight.errors(), flight.left))
        check("at how many", len(proxies), flight.proxies)
        check_true("that there were hits", sum(it.hits for it in flight.seconds) > 20)


@case(waits=True)
def each_second_of_a_canary_is_an_object():
    """Compact, its keys in byte order, and the last one is the verdict."""
    with Fleet() as fleet:
        begun = int(time.time())
        status, lines, faults = canary(fleet, unasked(fleet), "--json", "--seconds", "3", *fakes(fleet, Memory()))
        check("its status", (0, b""), (status, faults))
        *seconds, last = objects = [json.loads(line) for line in lines]
        check("its lines", [json.dumps(it, separators=(",", ":"), sort_keys=True) for it in objects], lines)
        names = ["at", "came_back", "errors", "greatest_micros", "hits", "hop", "median_micros", "misses", "phase", "requests"]
        check("the keys of each second", [names] * len(seconds), [list(it) for it in seconds])
        check_true("that the first second is the machine's", 0 <= seconds[0]["at"] - begun <= 5)
        verdict = {"came_back": 0, "left": 0, "proxies": 2, "requests": sum(it["requests"] for it in seconds)}
        check("the verdict", verdict, {name: last["verdict"].get(name) for name in verdict})
        check_true("that deletes were acknowledged", last["verdict"]["acknowledged"] > 0)


@case(waits=True)
def a_canary_ends_behind_the_migration():
    """Ten seconds behind its last phase's begin, or its own."""
    with Fleet() as fleet:
        config = fleet.config(["127.0.0.1:7001"], ["127.0.0.1:7002"], int(time.time()) + 2, 1)
        begun = time.monotonic()
        flight = flown(fleet, config, "--until-migrated", *fakes(fleet, Memory()))
        check_took("it ended", begun, 10, 19)
        check_true("that it was ten seconds in the last phase", 10 <= sum(it.phase == "new-only" for it in flight.seconds) <= 12)


@case(waits=True)
def a_canary_that_is_killed_leaves_keys_that_expire():
    with Fleet() as fleet:
        memory = Memory()
        words = ["canary", "--config", unasked(fleet), "--rate", "1000", *fakes(fleet, memory, 1)]
        child = fleet.start_command(*words, stdin=subprocess.DEVNULL)
        until = time.monotonic() + PATIENCE
        while len(memory.requests) < 500 and time.monotonic() < until:
            time.sleep(0.05)
        child.send_signal(signal.SIGKILL)
        CHILDREN.end(child)
        check("the expiry of what is left", {EXPIRY}, {it.request.split()[3] for it in memory.held.values()})


@case(waits=True)
def a_canary_redraws_its_line_on_a_terminal():
    with Fleet() as fleet:
        mine, its = pty.openpty()
        words = ["canary", "--config", unasked(fleet), "--seconds", "3", *fakes(fleet, Memory(), 1)]
        child = fleet.start_command(*words, stdin=subprocess.DEVNULL, stdout=its)
        os.close(its)
        shown = b""
        with ended_in_time(child), contextlib.suppress(OSError):  # which comes at its end
            while piece := os.read(mine, 65536):
                shown += piece
        os.close(mine)
        check("its status", 0, child.wait(PATIENCE))
        drawn, _, below = shown.partition(b"\n")
        lines = drawn.rstrip(b"\r").split(b"\r\x1b[K\x1b[?7l")
        check_true(f"that {lines} are drawn in one place", lines[0] == b"" and 3 <= len(lines[1:]) <= 4)
        check_true("that each is a second", all(SECOND.fullmatch(it.removesuffix(b"\x1b[?7h").decode()) for it in lines[1:]))
        check_true(f"that {below} are the table and the verdict", below.startswith(HEAD.encode()) and b"nothing that was deleted" in below)


@case
def a_canary_refuses_words_that_are_none():
    with Fleet() as fleet:
        config = unasked(fleet)
        said = canary(fleet, config, "127.0.0.1:9001", "nowhere")
        check("a word that is no address", (1, [], b"migctl: net nowhere\n"), said)
        said = canary(fleet, config, "--prefix", "a b", "127.0.0.1:9001")
        check("a prefix that makes no key", (1, [], b"migctl: text 2 BadKey\n"), said)


@case(waits=True)
def a_canary_whose_output_is_gone_ends():
    with Fleet() as fleet:
        reader, writer = os.pipe()
        os.close(reader)
        try:
            status, _, faults = fleet.run("canary", "--config", unasked(fleet), *fakes(fleet, Memory(), 1), stdout=writer)
        finally:
            os.close(writer)
        check("what it says", (1, b"migctl: output\n"), (status, faults))
