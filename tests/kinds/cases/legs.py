"""How long a leg may take: its whole reply counts, whatever its node does meanwhile, at short bounds and at long ones, in each pool."""
import time

from beside import UNPROVED, in_threads, told_proxy, wait_for_links, wait_until
from client import LOST, MISS, NOT_FOUND, STORED, delete_of, get_of, set_of
from fake import FullQueue
from fleet import Fleet
from lateness import check_took, note_late
from peers import Deaf, Dripping, OneByOne, Silent
from placing import key_at
from running import case
from scraping import scraped
from wanted import Wrong, check

# More than there is room for at both ends of a connection to a node that reads nothing.
LARGE = "v" * (200_000 if UNPROVED else 1 << 20)
BLOCKS = 2 if UNPROVED else 4


def expect_lost(client, count, begun, bound, what):
    """So many lines that a leg was lost come, the first one after the bound and the last one with it."""
    got = b""
    while len(got) < count * len(LOST):
        came, end = client.piece(count * len(LOST) - len(got), 2 * bound + 10)
        if end:
            raise Wrong(f"the answers for {what}", LOST * count, got + end)
        if not got:
            check_took(f"the first leg to {what} was lost", begun, bound)
        got += came
    check(f"the answers for {what}", LOST * count, got)
    check_took(f"the last leg to {what} was lost", begun, bound)


class Slow:
    """A proxy before nodes that are slow, each in its own way, with a bound of so many milliseconds."""

    def __init__(self, fleet, millis):
        self.bound = millis / 1000
        self.part = (0.6 if millis > 1000 else 0.3) * self.bound  # that a leg may take
        self.silent, self.deaf, self.dripping = Silent(), Deaf(), Dripping(self.bound / 2)
        self.slow, self.steady = OneByOne(self.part, 1.4 * self.bound), OneByOne(self.part)
        played = [fleet.keep(it) for it in (self.silent, self.deaf, self.dripping, self.slow, self.steady)]
        self.good = fleet.node()
        nodes = [*played, self.good]
        self.proxy = told_proxy(fleet, fleet.config([it.address for it in nodes]), "--leg-timeout", str(millis))
        wait_for_links(self.proxy, *nodes)
        self.keys = {it: key_at(number, len(nodes)) for number, it in enumerate(nodes)}

    def lose(self, what, *requests):
        """All of these are lost after the bound."""
        client = self.proxy.client()
        begun = time.monotonic()
        client.send(*requests)
        expect_lost(client, len(requests), begun, self.bound, what)

    def lose_all(self):
        """Of each kind that loses all its legs, side by side."""
        silent, deaf, dripping = (self.keys[it] for it in (self.silent, self.deaf, self.dripping))
        in_threads(
            lambda: self.lose("a silent node", get_of(silent), set_of(silent, "v"), delete_of(silent)),
            lambda: self.lose("a node that sends a byte each half of the bound", get_of(dripping)),
            lambda: self.lose("a node that reads nothing", *[set_of(deaf, LARGE)] * BLOCKS),
        )

    def carry(self):
        """Legs that take a part of the bound come back, one behind another."""
        client = self.proxy.client()
        for _ in range(1 if self.bound > 1 else 5):
            self.expect_back(client, get_of(self.keys[self.steady]))

    def lose_the_second(self):
        """Of two legs at once the second one is lost, by the time since it went."""
        client = self.proxy.client()
        begun = time.monotonic()
        self.expect_back(client, get_of(self.keys[self.slow]) * 2)
        expect_lost(client, 1, begun, self.bound, "a node that answers one and is too late with the next one")

    def expect_back(self, client, requests):
        """The first of these comes back after its time."""
        begun = time.monotonic()
        client.send(requests)
        answer = client.line()
        check_took("a slow leg was back", begun, self.part)
        note_late(begun)
        check("the answer of a slow leg", MISS, answer)

    def ask_others(self):
        """Another node's keys are served all the while."""
        client = self.proxy.client()
        until = time.monotonic() + self.bound
        while time.monotonic() < until:
            begun = time.monotonic()
            client.ask(set_of(self.keys[self.good], "v"), STORED)
            check_took("another node's key was set", begun, 0, max(0.5, min(2, self.bound / 4)))
            time.sleep(0.05)


def look_at_bound(millis):
    """A proxy with this bound loses the legs of nodes that are silent, deaf or too slow after that time: neither sooner nor later.
    What is answered after a part of it isn't lost, and others are answered at once."""
    with Fleet() as fleet:
        slow = Slow(fleet, millis)
        in_threads(slow.lose_all, slow.carry, slow.lose_the_second, slow.ask_others)


@case(waits=True)
def a_bound_of_200_milliseconds_is_a_legs_whole_time():
    look_at_bound(200)


@case(waits=True)
def a_bound_of_5000_milliseconds_is_a_legs_whole_time():
    look_at_bound(5000)


@case(waits=True)
def a_bound_of_20000_milliseconds_is_a_legs_whole_time():
    look_at_bound(20_000)


@case(waits=True)
def by_threads_a_leg_has_its_bound_too():
    """Of 200, 5000 and 20000 milliseconds, at a node that is silent and at one that accepts nobody; of 200 and 1000 at one that reads
    nothing, where each of the few writes has it that find a little room."""
    with Fleet() as fleet:
        silent, full, deaf = fleet.keep(Silent()), fleet.keep(FullQueue()), fleet.keep(Deaf())
        config = fleet.config([silent.address, full.address, deaf.address])
        key = {it: key_at(number, 3) for number, it in enumerate((silent, full, deaf))}

        def look(millis, request, writes=1):
            client = fleet.proxy_by_threads(config, "--leg-timeout", str(millis)).client()
            begun = time.monotonic()
            client.send(request)
            line, bound = client.line(30), millis / 1000
            check("the answer by threads", LOST, line)
            check_took(f"{request[:12]!r} was lost by threads", begun, bound, writes * bound)

        in_threads(
            *(lambda millis=millis: look(millis, get_of(key[silent])) for millis in (200, 5000, 20_000)),
            *(lambda millis=millis: look(millis, get_of(key[full])) for millis in (200, 5000, 20_000)),
            *(lambda millis=millis: look(millis, set_of(key[deaf], LARGE), 10) for millis in (200, 1000)),
        )


@case(waits=True)
def a_dial_is_given_up_after_the_bound():
    """At a node that accepts nobody each loop begins the next dial once the bound and a pause are over, and not before."""

    def look(millis):
        bound = millis / 1000
        with Fleet() as fleet:
            full = fleet.keep(FullQueue())
            begun = time.monotonic()
            proxy = told_proxy(fleet, fleet.config([full.address]), "--leg-timeout", str(millis), "--loops", "1")
            listened = time.monotonic()
            dials = ("migctl_proxy_link_dials_total", "0", full.address)
            wait_until("the second dial", lambda: scraped(proxy.metrics)[dials] >= 2, bound + 10)
            ended = time.monotonic()
            check_took("the second dial of a node that accepts nobody", begun, bound + 0.05, bound + 0.1 + listened - begun, ended)
            check("dials behind it", 2, scraped(proxy.metrics)[dials])
            if millis < 1000:
                # the pauses between them grow from 50 ms
                wait_until("five dials", lambda: scraped(proxy.metrics)[dials] >= 5, 10)
                check_took("five dials were begun", begun, 4 * bound + 0.75, 4 * bound + 0.85 + listened - begun)

    in_threads(*(lambda millis=millis: look(millis) for millis in (400, 5000, 20_000)))


@case(waits=True)
def the_nodes_of_each_pool_of_a_chain_have_the_bound():
    """Five pools, of which each is asked in its own time: its silent node loses a leg after the bound, a delete's at either pool."""
    bound = 0.7
    with Fleet() as fleet:
        pools = [[fleet.keep(Silent())] for _ in range(5)]
        base = int(time.time()) + 1_000_000
        starts = [base + 10_000 * hop for hop in range(4)]
        config = fleet.chain_config([[it.address for it in pool] for pool in pools], starts, 1000, "sum")
        clock = fleet.clock()
        proxy = told_proxy(fleet, config, "--leg-timeout", "700", "--loops", "1", clock=clock)
        client = proxy.client()
        moments = [("the first pool", base - 5000, get_of("k"))]
        for hop, start in enumerate(starts):
            moments.append((f"pools {hop} and {hop + 1}", start + 500, delete_of("k")))
            moments.append((f"pool {hop + 1} in the middle", start + 1500, set_of("k", "v")))
            moments.append((f"pool {hop + 1}", start + 2500, get_of("k")))
        for what, second, request in moments:
            wait_for_links(proxy, *(it for pool in pools for it in pool))
            clock.move(second - int(time.time()))
            begun = time.monotonic()
            client.send(request)
            expect_lost(client, 1, begun, bound, what)


@case(waits=True)
def a_delete_waits_for_the_slower_of_its_two_pools():
    """The new pool's node takes three fifths of the bound, or is silent: then the delete is lost, though the old one answered."""
    with Fleet() as fleet:
        old = fleet.node()
        for new, answer, took in ((OneByOne(0.6), NOT_FOUND, 0.6), (Silent(), LOST, 1.0)):
            fleet.keep(new)
            config = fleet.config([old], [new.address], start=int(time.time()) - 1800)
            proxy = told_proxy(fleet, config, "--leg-timeout", "1000", "--loops", "1")
            wait_for_links(proxy, old.address, new)
            client = proxy.client()
            client.ask(set_of("k", "v"), STORED)
            begun = time.monotonic()
            client.ask(delete_of("k"), answer)
            check_took("the delete was answered", begun, took)
            old.ask(get_of("k"), MISS)
