"""What is told is the truth: a driver knows what it did, and every number that is told is compared with that."""
import collections
import hashlib
import json
import pathlib
import threading
import time

import moments
from beside import UNPROVED, in_threads, told_node, told_proxy, wait_for_links, wait_until
from client import DELETED, LOST, MISS, NOT_FOUND, STORED, delete_of, get_of, hits, set_of
from fake import FakeNode
from fleet import Fleet
from known import Cache, Legs, compare, families
from lateness import late_since
from placing import key_at
from ports import place_at
from running import case
from scraping import scraped, wait_for
from wanted import Wrong, check, check_true

PHASES = ("old-only", "both-read-old", "both-read-new", "new-only")
COMMANDS = ("get", "set", "delete")
KINDS = ("hit", "miss", "stored", "deleted", "not found", "leg lost", "out of memory", "clock fault", "other fault")
HASH = "sum"
NODES = 3  # of each pool: one that keeps items, one that plays, and one that isn't there
CAPACITY = 6  # items of a node
LOOPS, ROOM, CLIENTS = 2, 4, 5
QUEUE = ROOM * 3 // 4  # legs that wait for a node at most
LEG = 2  # seconds that a leg may take
HOP, INTERVAL = 10_000, 1000  # seconds from one start to the next, and the interval of each hop
NO_CLOCK = b"SERVER_ERROR clock fault\r\n"
# The seconds that a playing node takes, each with the bounds of the histogram between which a leg has to lie once.
WAITS = {"w4": (0.004, 0.0025, 0.005), "w7": (0.007, 0.005, 0.01), "w30": (0.03, 0.025, 0.05), "w1200": (1.2, 1, 2.5)}
# What a playing node answers to keys of a stem: what the client is told then, what that counts as, and whether the link ends.
FAULTS = {
    "memory": (b"SERVER_ERROR out of memory\r\n", b"SERVER_ERROR out of memory\r\n", "out of memory", False),
    "own": (b"SERVER_ERROR words of its own\r\n", b"SERVER_ERROR words of its own\r\n", "other fault", False),
    "clock": (NO_CLOCK, NO_CLOCK, "clock fault", False),
    "busy": (b"SERVER_ERROR busy\r\n", b"SERVER_ERROR busy\r\n", "other fault", False),
    "error": (b"ERROR\r\n", b"SERVER_ERROR node refused\r\n", "other fault", True),
    "client": (b"CLIENT_ERROR bad key\r\n", b"SERVER_ERROR bad key\r\n", "other fault", True),
    "strange": (b"DELETED\r\n", LOST, "leg lost", True),
    "close": (b"", LOST, "leg lost", True),
}


class PlayingNode(FakeNode):
    """A node that answers by the stem of a key, and notes how long it took at least over each request."""

    def __init__(self):
        self.go_on = threading.Event()
        self.took = 0.0
        super().__init__(self.play)

    def play(self, link):
        """Answers what comes until it is to end the connection."""
        while request := link.request():
            begun = time.monotonic()
            stem = request.split()[1].split(b"-")[0].decode()
            if stem == "silent":
                continue
            if stem == "keep":
                self.go_on.wait(20)
            if stem in WAITS:
                time.sleep(WAITS[stem][0])
            self.took = time.monotonic() - begun
            answer = FAULTS[stem][0] if stem in FAULTS else MISS
            if not answer:
                return
            link.send(answer)


class Chain:
    """Five pools, through which a proxy is driven by its clock, and all that is known of it and of its nodes."""

    def __init__(self, fleet):
        self.fleet = fleet
        self.caches = [Cache(CAPACITY) for _ in range(5)]
        before = int(time.time())
        self.nodes = [told_node(fleet, "--capacity", str(CAPACITY), "--loops", str(LOOPS)) for _ in range(5)]
        self.nodes_started = before, int(time.time())
        self.playing = [fleet.keep(PlayingNode()) for _ in range(5)]
        self.away = [fleet.keep(place_at("127.0.0.1")).address() for _ in range(5)]
        self.pools = [[node.address, playing.address, away] for node, playing, away in zip(self.nodes, self.playing, self.away)]
        self.base = int(time.time()) + 1_000_000
        self.starts = [self.base + HOP * hop for hop in range(4)]
        self.config = fleet.chain_config(self.pools, self.starts, INTERVAL, HASH)
        self.ahead = self.base - 5000 - int(time.time())
        self.clock = fleet.clock(self.ahead)
        self.legs, self.legs_told, self.breaks = Legs(), collections.Counter(), collections.Counter()
        self.requests, self.answers = collections.Counter(), collections.Counter()
        self.held_back = self.steps_back = 0
        self.families = set()
        self.begin()

    def begin(self):
        """Starts the proxy, and two clients, each of which goes to a loop of its own."""
        words = ("--loops", str(LOOPS), "--room", str(ROOM), "--max-clients", str(CLIENTS), "--leg-timeout", str(1000 * LEG))
        self.started = [time.time() + self.ahead]
        self.begun = time.monotonic()
        self.proxy = told_proxy(self.fleet, self.config, *words, clock=self.clock)
        self.started.append(time.time() + self.ahead)
        self.listened = time.monotonic()
        wait_for_links(self.proxy, *self.nodes, *self.playing)
        self.clients = self.proxy.clients(2)
        self.came = 2
        wait_for(self.proxy.metrics, ("migctl_open_connections",), self.came)
        self.last_issue = None
        self.turn = 0

    def client(self):
        """Who asks next: the two take turns."""
        self.turn += 1
        return self.clients[self.turn % 2]

    def go_to(self, second):
        """Sets the proxy's clock."""
        self.ahead = second - int(time.time())
        self.clock.move(self.ahead)

    def ask(self, request, wanted, kinds, pools, legs, command, phase, node=0, is_carried=True, is_timed=True, least=0.0):
        """Asks, and knows what that counts as: each of so many legs to a node of these pools."""
        begun, second = time.monotonic(), int(time.time()) + self.ahead
        self.client().ask(request, wanted)
        took = time.monotonic() - begun
        self.last_issue = (second, int(time.time()) + self.ahead)
        self.requests[(command, phase)] += 1
        self.answers.update(kinds)
        for pool in pools:
            self.legs_told[(pool, node, "carried" if is_carried else "lost")] += legs
            if is_timed:
                for _ in range(legs):
                    self.legs.add(least, took)

    def key(self, stem, node=0):
        """A key of this stem that is placed at this node of each pool."""
        return key_at(node, NODES, HASH, f"{stem}-")

    def play_commands(self, number, phase, reads, deletes):
        """Sets, gets and deletes, more of them at each further moment of the chain."""
        cache = self.caches[reads]
        keys = [self.key(f"m{number}x{it}") for it in range(1 + number % 4)]
        for key in keys:
            cache.set(key, f"{number}")
            self.ask(set_of(key, f"{number}"), STORED, {"stored": 1}, [reads], 1, "set", phase)
        asked = [*keys, self.key("absent"), keys[0]]
        found = [(key, cache.get(key)) for key in asked]
        there = [it for it in found if it[1] is not None]
        kinds = {"hit": len(there), "miss": len(found) - len(there)}
        self.ask(get_of(*asked), hits(*there), kinds, [reads], len(asked), "get", phase)
        for key in (keys[0], self.key("absent")):
            dropped = [self.caches[pool].delete(key) for pool in deletes]
            kind, answer = ("deleted", DELETED) if all(dropped) else ("not found", NOT_FOUND)
            self.ask(delete_of(key), answer, {kind: 1}, deletes, 1, "delete", phase)

    def play_faults(self, phase, reads):
        """Each kind of fault at the playing node of a pool, and a get of a key whose node isn't there."""
        playing = self.playing[reads]
        for stem, (_, answer, kind, ends) in FAULTS.items():
            self.ask(
                get_of(self.key(stem, 1)), answer, {kind: 1}, [reads], 1, "get", phase, node=1, is_carried=kind != "leg lost"
            )
            if ends:
                self.note_break(reads)
        self.ask(get_of(self.key("gone", 2)), LOST, {"leg lost": 1}, [reads], 1, "get", phase, node=2, is_carried=False, is_timed=False)
        check("the connections that a playing node had", LOOPS + self.breaks[reads], len(playing.links))

    def note_break(self, pool):
        """The link to a playing node has ended. It is made again."""
        self.breaks[pool] += 1
        breaks = ("migctl_proxy_link_breaks_total", str(pool), self.playing[pool].address)
        wait_for(self.proxy.metrics, breaks, self.breaks[pool])
        wait_for_links(self.proxy, self.playing[pool])

    def play_waits(self, phase, reads):
        """A leg on both sides of bounds of the histogram, by how long a playing node takes: again where the machine was too slow for
        that. What is told of legs that took longer is compared all the same."""
        for stem, (_, below, bound) in WAITS.items():
            for _ in range(3 if UNPROVED else 20):
                begun, second = time.monotonic(), int(time.time()) + self.ahead
                self.client().ask(get_of(self.key(stem, 1)), MISS)
                self.last_issue = (second, int(time.time()) + self.ahead)
                self.legs.add(self.playing[reads].took, time.monotonic() - begun)
                self.requests[("get", phase)] += 1
                self.answers["miss"] += 1
                self.legs_told[(reads, 1, "carried")] += 1
                if self.legs.has_between(below, bound):
                    break

    def play_silence(self, phase, reads):
        """A leg that is lost after its time."""
        self.ask(get_of(self.key("silent", 1)), LOST, {"leg lost": 1}, [reads], 1, "get", phase, node=1, is_carried=False, least=LEG)
        self.note_break(reads)

    def play_queue(self, phase, reads):
        """As many legs wait for a node as may, and one more request is held back until they are answered."""
        client, playing = self.client(), self.playing[reads]
        begun, second = time.monotonic(), int(time.time()) + self.ahead
        client.send(get_of(self.key("keep", 1)) * (QUEUE + 1) + get_of(self.key("absent")))
        wait_for(self.proxy.metrics, ("migctl_proxy_requests_held_back_total",), 1)
        self.held_back += 1
        kept = begun + 0.3
        time.sleep(max(0.0, kept - time.monotonic()))
        # what was judged so far is counted where it has come to an answer
        self.compare({("migctl_proxy_requests_under_way",): QUEUE})
        playing.go_on.set()
        client.expect(MISS * (QUEUE + 2))
        took = time.monotonic() - begun
        self.last_issue = (second, int(time.time()) + self.ahead)
        self.caches[reads].get(self.key("absent"))
        self.requests[("get", phase)] += QUEUE + 2
        self.answers["miss"] += QUEUE + 2
        self.legs_told[(reads, 1, "carried")] += QUEUE + 1
        self.legs_told[(reads, 0, "carried")] += 1
        for _ in range(QUEUE + 2):
            self.legs.add(0, took)

    def play_clients(self):
        """As many clients as may be at once, and then two again."""
        more = self.proxy.clients(CLIENTS - 2)
        self.came += len(more)
        wait_for(self.proxy.metrics, ("migctl_open_connections",), CLIENTS)
        wait_for(self.proxy.metrics, ("migctl_proxy_clients_wait",), 1)
        self.compare({("migctl_open_connections",): CLIENTS, ("migctl_proxy_clients_wait",): 1})
        for it in more:
            it.quit()
        wait_for(self.proxy.metrics, ("migctl_open_connections",), 2)
        wait_for(self.proxy.metrics, ("migctl_proxy_clients_wait",), 0)

    def play_clock_fault(self):
        """A clock that gives no reading: a client who asks is told so, unless it wants no answer, and goes on; all of them count. The
        clock isn't told then."""
        key = self.key("absent")
        self.clock.fail()
        for request in (get_of(key), set_of(key, "v"), delete_of(key), set_of(key, "v", noreply=True) + get_of(key, key)):
            self.client().ask(request, NO_CLOCK)
        self.answers["clock fault"] += 5
        self.compare({("migctl_clock_seconds",): None})
        self.clock.move(self.ahead)

    def compare(self, other=None):
        """All that the proxy tells is as it is known, but for these numbers."""
        before = int(time.time()) + self.ahead
        samples = scraped(self.proxy.metrics)
        after = int(time.time()) + self.ahead
        known = self.known(before, after) | (other or {})
        self.families |= compare("the proxy", {name: it for name, it in known.items() if it is not None}, samples)

    def known(self, before, after):
        """All that the proxy has to tell between these two seconds of its clock."""
        known = self.known_of_service(before, after) | self.known_of_place(after) | self.legs.known()
        known |= {("migctl_proxy_requests_total", command, it): self.requests[(command, it)] for command in COMMANDS for it in PHASES}
        known |= {("migctl_proxy_answers_total", it): self.answers[it] for it in KINDS}
        for pool, names in enumerate(self.pools):
            for number, name in enumerate(names):
                known |= self.known_of_node(pool, number, name)
        return known

    def known_of_service(self, before, after):
        """What it has to tell of itself, its clock and its clients."""
        value = json.dumps(json.loads(pathlib.Path(self.config).read_bytes()), sort_keys=True, separators=(",", ":"))
        return {
            ("migctl_build_info", version(self.fleet)): 1,
            ("migctl_proxy_config_info", hashlib.sha256(value.encode()).hexdigest()): 1,
            ("migctl_start_time_seconds",): (int(self.started[0]), self.started[1]),
            ("migctl_clock_seconds",): (before, after),
            ("migctl_clock_steps_back_total",): self.steps_back,
            ("migctl_open_connections",): 2,
            ("migctl_connections_total",): self.came,
            ("migctl_proxy_requests_held_back_total",): self.held_back,
            ("migctl_proxy_requests_under_way",): 0,
            ("migctl_proxy_room_requests",): LOOPS * ROOM,
            ("migctl_proxy_loops",): LOOPS,
            ("migctl_proxy_max_clients",): CLIENTS,
            ("migctl_proxy_clients_wait",): 0,
        }

    def known_of_place(self, second):
        """What it has to tell of its place in the schedule, at a second of its clock."""
        hop, phase, following = place_in(self.starts, max(second, self.last_issue[1] if self.last_issue else 0))
        return {
            ("migctl_proxy_last_issue_seconds",): self.last_issue,
            ("migctl_proxy_hop",): hop,
            **{("migctl_proxy_phase", it): int(it == phase) for it in PHASES},
            ("migctl_proxy_next_phase_seconds",): following,
        }

    def known_of_node(self, pool, number, name):
        """What the proxy has to tell of the links to a node."""
        breaks = self.breaks[pool] if number == 1 else 0
        known = {
            ("migctl_proxy_legs_total", str(pool), name, it): self.legs_told[(pool, number, it)] for it in ("carried", "lost")
        }
        return known | {
            ("migctl_proxy_link_up", str(pool), name): 0 if number == 2 else LOOPS,
            ("migctl_proxy_link_breaks_total", str(pool), name): breaks,
            ("migctl_proxy_link_dials_total", str(pool), name): self.dials() if number == 2 else LOOPS + breaks,
        }

    def dials(self):
        """How often a node that isn't there was dialled, at least and at most: in pauses that grow from 50 ms to 2 s."""
        passed, late = time.monotonic() - self.begun, late_since(self.begun)
        least = dials_within((time.monotonic() - self.listened) / (1 + 10 * late) - 1)
        return LOOPS * least, LOOPS * dials_within(passed)

    def compare_nodes(self):
        """What each node tells is as it is known."""
        for node, cache in zip(self.nodes, self.caches):
            now = int(time.time())
            known = {
                ("migctl_build_info", version(self.fleet)): 1,
                ("migctl_start_time_seconds",): self.nodes_started,
                ("migctl_node_loops",): LOOPS,
                ("migctl_open_connections",): LOOPS,
                ("migctl_connections_total",): LOOPS,
                ("migctl_clock_seconds",): (now, now + 2),
                ("migctl_clock_steps_back_total",): 0,
                **cache.known(node.address),
            }
            self.families |= compare(f"the node {node.address}", known, scraped(node.metrics))


def dials_within(seconds):
    """How many dials of a node that refuses each have begun after so many seconds, where none is late."""
    count, at, pause = 1, 0.0, 0.05
    while at + pause <= seconds:
        at, pause, count = at + pause, min(2.0, 2 * pause), count + 1
    return count


def version(fleet):
    """The version that the program says."""
    _, output, _ = fleet.run("--version")
    return output.decode().split()[-1]


def place_in(starts, second):
    """The hop in force at a second, its phase, and when the next one begins: by docs/FORMATS.md, of hops of one interval."""
    hop = max((number for number, start in enumerate(starts) if start <= second), default=0)
    borders = [starts[hop], starts[hop] + INTERVAL, starts[hop] + 2 * INTERVAL]
    passed = sum(it <= second for it in borders)
    later = [it for it in (*borders, *starts) if it > second]
    return hop, PHASES[passed], min(later, default=None)


def moments_of(starts):
    """A second in each phase of each hop: the phase, the pool that gets and sets go to, and those that deletes go to."""
    yield starts[0] - 4000, "old-only", 0, [0]
    for hop, start in enumerate(starts):
        yield start + 500, "both-read-old", hop, [hop, hop + 1]
        yield start + 1500, "both-read-new", hop + 1, [hop, hop + 1]
        yield start + 2500, "new-only", hop + 1, [hop + 1]


@case(waits=True)
def all_that_services_tell_is_what_one_driver_did():
    """Commands, hits and misses in each phase of a chain of four, every kind of fault at each of its pools, legs that take as long
    as it is known: every family of docs/METRICS.md is compared, to the number where that is known and else between two."""
    with Fleet() as fleet:
        chain = Chain(fleet)
        chain.compare()
        for number, (second, phase, reads, deletes) in enumerate(moments_of(chain.starts)):
            chain.go_to(second)
            chain.play_commands(number, phase, reads, deletes)
            if phase in ("old-only", "new-only"):
                chain.play_faults(phase, reads)
                chain.play_waits(phase, reads)
            if phase == "both-read-new" and reads == 2:
                chain.play_silence(phase, reads)
                chain.play_queue(phase, reads)
            chain.compare()
        chain.play_clients()
        chain.play_clock_fault()
        chain.go_to(chain.base)
        chain.steps_back += 1
        second, phase, reads, deletes = list(moments_of(chain.starts))[-1]
        issue = chain.last_issue
        chain.play_commands(13, phase, reads, deletes)
        chain.last_issue = issue
        chain.compare()
        chain.compare_nodes()
        check("families that were compared", sorted(families()), sorted(chain.families))


def at_second(clock, second):
    """Sets a clock to a second that has just begun, and waits for that where it hasn't: five times, since a look may be too late."""
    for _ in range(5):
        fraction = time.time() % 1
        if not 0.02 < fraction < 0.6:
            time.sleep((1.05 - fraction) % 1)
        clock.move(second - int(time.time()))
        yield


@case(waits=True)
def the_next_phase_is_told_to_the_second():
    """On each border of a chain of four, a second before it and a second behind it: by the clock alone, and behind a request."""
    starts = [2_000_000_000 + HOP * hop for hop in range(4)]
    with Fleet() as fleet:
        pools = [[fleet.keep(place_at("127.0.0.1")).address()] for _ in range(5)]
        config = fleet.chain_config(pools, starts, INTERVAL, HASH)
        clock = fleet.clock()

        def look(proxy, second):
            samples = scraped(proxy.metrics)
            told = samples[("migctl_clock_seconds",)]
            issue = samples.get(("migctl_proxy_last_issue_seconds",), 0)
            hop, phase, following = place_in(starts, max(told, issue))
            what = f"at {told - starts[0]} behind the first start"
            check(f"the hop {what}", hop, samples[("migctl_proxy_hop",)])
            check(f"the phase {what}", {it: int(it == phase) for it in PHASES}, {it: samples[("migctl_proxy_phase", it)] for it in PHASES})
            check(f"the next phase {what}", following, samples.get(("migctl_proxy_next_phase_seconds",)))
            return told == second

        silent, asked = (told_proxy(fleet, config, "--loops", "1", clock=clock) for _ in range(2))
        client = asked.client()
        for border in (start + passed for start in starts for passed in (0, INTERVAL, 2 * INTERVAL)):
            for second in (border - 1, border, border + 1):
                if not any(look(silent, second) for _ in at_second(clock, second)):
                    moments.this_thread.late = True
                    raise Wrong("the second that is told", second, "another one, five times")
                client.ask(get_of("k"), LOST)
                look(asked, second)


STEPS = 16
READERS = 8


def read_on(service, ended):
    """A client reads the clock until it is over."""
    with service.client() as client:
        while not ended.is_set():
            client.ask(get_of("k"), MISS)


def step_back(service, clock, ended):
    """The clock goes back by one second, again and again, each time in the midst of a second. Each step is told as one."""
    steps = ("migctl_clock_steps_back_total",)
    try:
        for number in range(STEPS):
            if not 0.1 < time.time() % 1 < 0.7:
                time.sleep((1.15 - time.time() % 1) % 1)
            begun = int(time.time())
            check("steps back before it", number, scraped(service.metrics)[steps])
            clock.move(-1 - number)
            moved = int(time.time())
            wait_until("the step back", lambda number=number: scraped(service.metrics)[steps] > number, 5)
            if begun != moved:
                moments.this_thread.late = True  # a second went by as the clock went back
            check("steps back by a second", number + 1, scraped(service.metrics)[steps])
    finally:
        ended.set()


@case(waits=True)
def a_step_back_of_one_second_is_counted_once_while_others_read():
    """Eight clients read all the while that the clock goes back by a second, sixteen times: a node and a proxy count one more each
    time."""
    with Fleet() as fleet:
        config = fleet.config(fleet.nodes(1))

        def look(serve):
            clock, ended = fleet.clock(), threading.Event()
            service = serve(clock)
            in_threads(
                *[lambda: read_on(service, ended)] * READERS,
                lambda: step_back(service, clock, ended),
            )

        in_threads(
            lambda: look(lambda clock: told_node(fleet, clock=clock)),
            lambda: look(lambda clock: told_proxy(fleet, config, "--loops", "4", clock=clock)),
        )
