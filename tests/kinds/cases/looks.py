"""The times of a look: how far clocks are apart, how fast requests come, and what is shown of nodes that hold nothing."""
import json
import time

import moments
from beside import UNPROVED, in_threads, told_node
from fake import FakeNode, Teller
from fleet import Fleet
from lateness import late_since
from running import case
from telling import node_text, proxy_text, stats_text
from wanted import Wrong, check, check_true

DELAY = 0.4 if UNPROVED else 0.7  # seconds that a service takes to answer, of the second that it has
ROUNDING = 2  # milliseconds by which two clocks of the watcher's and of the case's differ for no other reason
BEGIN, END = "at the beginning", "at the end"


def milliseconds():
    """The machine's time."""
    return time.time_ns() // 1_000_000


class Reader(FakeNode):
    """A service that takes a while to answer, and reads its clock when it was asked or just before it answers. That clock is so many
    milliseconds ahead of the machine's, which is known, that it has this rest behind its whole second then."""

    def __init__(self, when, rest, seconds_ahead=0):
        self.when, self.rest, self.seconds_ahead = when, rest, seconds_ahead
        self.ahead = None
        super().__init__(self.answer)

    def answer(self, link):
        """Answers one request, and ends the connection."""
        if not link.request():
            return
        while link.request().strip():
            pass
        if self.when == END:
            time.sleep(DELAY)
        now = milliseconds()
        second = now // 1000 + self.seconds_ahead
        self.ahead = 1000 * second + self.rest - now
        text = proxy_text("old-only", second)
        if self.when == BEGIN:
            time.sleep(DELAY)
        link.send(b"HTTP/1.1 200 OK\r\nContent-Length: %d\r\n\r\n" % len(text) + text)


def expect_reached(shown):
    """Each service was reached, within its second. Where one wasn't the machine was late."""
    if not all(it["reached"] for it in shown["proxies"]):
        moments.this_thread.late = True
        raise Wrong("whether all were reached", True, False)


def looked(fleet, *addresses, words=("--once", "--json")):
    """What a look shows of a fleet whose migration is far away."""
    config = fleet.config([told_node(fleet)], start=int(time.time()) + 100_000, interval=10)
    _, output, _ = fleet.run("watch", "--config", config, *words, *addresses)
    return output


@case(waits=True)
def the_true_distance_of_two_clocks_lies_between_least_and_most():
    """Of two services that take 0.7 seconds each. They read their clocks as early or as late as they may, just at a second or just
    before the next: then the most, or the least, is the very distance, and it isn't more than what asking takes beside it."""
    def look(first, second, tight):
        with Fleet() as fleet:
            begun = time.monotonic()
            services = [fleet.keep(first()), fleet.keep(second())]
            for addresses in ([it.address for it in services], [it.address for it in reversed(services)]):
                shown = json.loads(looked(fleet, *addresses))
                expect_reached(shown)
                spread = shown["spread"]
                apart = abs(services[0].ahead - services[1].ahead)
                least, most = spread["at_least"], spread["at_most"]
                if not least - ROUNDING <= apart <= most + ROUNDING:
                    raise Wrong("milliseconds between two clocks", f"{least} to {most}", apart)
                allowed = 150 + 4000 * late_since(begun)
                if tight == "most" and most > apart + allowed:
                    raise Wrong("milliseconds at most", f"{apart} to {apart + allowed}", most)
                if tight == "least" and least < apart - allowed:
                    raise Wrong("milliseconds at least", f"{apart - allowed} to {apart}", least)

    in_threads(
        # one is as far ahead as what it tells allows, and the other as far behind
        lambda: look(lambda: Reader(BEGIN, 999, 5), lambda: Reader(END, 0), "most"),
        lambda: look(lambda: Reader(BEGIN, 999, 0), lambda: Reader(END, 0, 3), None),
        # and the other way round
        lambda: look(lambda: Reader(END, 0, 5), lambda: Reader(BEGIN, 999), "least"),
        lambda: look(lambda: Reader(END, 0, 9), lambda: Reader(BEGIN, 999, 2), "least"),
        lambda: look(lambda: Reader(BEGIN, 0, 4), lambda: Reader(END, 999), None),
        lambda: look(lambda: Reader(END, 500, 4), lambda: Reader(END, 400), None),
        lambda: look(lambda: Reader(BEGIN, 300), lambda: Reader(BEGIN, 600, 1), None),
    )


@case(waits=True)
def a_clock_that_is_off_by_seconds_is_shown_so():
    """As text: of eight services that are asked one behind another and take 0.7 seconds each, so that the watcher's clock goes on by
    more than a rounding meanwhile."""
    with Fleet() as fleet:
        offs = (0, 7, -7, 0, 70, -70, 7, 0)
        services = [fleet.keep(Reader(BEGIN, 500, off)) for off in offs]
        lines = looked(fleet, *(it.address for it in services), words=("--once",)).decode().splitlines()
        if any("unreached" in line for line in lines):
            moments.this_thread.late = True  # each has a second
            raise Wrong("whether all were reached", True, lines)
        for service, off in zip(services, offs):
            (_, phase, clock, *_), = (line.split() for line in lines if line.startswith(service.address))
            check("its phase", "old-only", phase)
            check_true(f"that {clock} is {off}, or one beside it", int(clock) in (off - 1, off, off + 1) and clock[0] in "+-")


class Counting(FakeNode):
    """A proxy that has had a thousand requests a second since a moment, when it answers: at once and after a while by turns. At the
    ninth time it is in the last phase."""

    def __init__(self, since):
        self.since, self.asked = since, 0
        super().__init__(self.answer)

    def answer(self, link):
        """Answers one request, and ends the connection."""
        if not link.request():
            return
        while link.request().strip():
            pass
        number, self.asked = self.asked, self.asked + 1
        time.sleep(DELAY * (number % 2))
        text = proxy_text("old-only" if number < 8 else "new-only", requests=int(1000 * (time.monotonic() - self.since)))
        link.send(b"HTTP/1.1 200 OK\r\nContent-Length: %d\r\n\r\n" % len(text) + text)


@case(waits=True)
def requests_a_second_are_by_the_time_between_two_answers():
    """A service counts a thousand a second, and answers at once or after 0.7 seconds by turns: so answers are a third of a second
    apart or five thirds."""
    with Fleet() as fleet:
        begun = time.monotonic()

        service = fleet.keep(Counting(begun))
        looks = [json.loads(line) for line in looked(fleet, service.address, words=("--json",)).splitlines()]
        for it in looks:
            expect_reached(it)
        rates = [it["proxies"][0]["requests_per_second"] for it in looks]
        late = late_since(begun)
        check("the first rate", None, rates[0])
        for rate in rates[1:]:
            check_true(f"that {rates[1:]} are near a thousand each", 1000 * (1 - 0.1 - 6 * late) <= rate <= 1000 * (1 + 0.1 + 6 * late))


@case(waits=True)
def nodes_that_hold_nothing_are_shown_as_seen():
    """By their metrics and by their stats, one by one and as a pool of seventeen: their items are 0 and not unknown, and the new pool
    is seen to be empty. Beside one that isn't reached that isn't seen."""
    with Fleet() as fleet:
        memcacheds = [fleet.keep(Teller(lambda _: stats_text(0, 0))) for _ in range(18)]
        tellers = [fleet.keep(Teller(lambda _, it=it: node_text(f"10.9.8.7:{it}"))) for it in (1, 2)]
        told = ["10.9.8.7:1", "10.9.8.7:2"]
        proxy = fleet.keep(Teller(lambda _: proxy_text("old-only")))
        start = int(time.time()) + 100_000
        few = fleet.config([told[0], memcacheds[17].address], [told[1], memcacheds[16].address], start, 10)
        many = fleet.config([told[0]], [it.address for it in memcacheds[:17]], start, 10)
        unreached = fleet.config([told[0]], ["127.0.0.1:1", told[1]], start, 10)
        addresses = [*(it.address for it in tellers), proxy.address]

        _, output, _ = fleet.run("watch", "--config", few, "--once", "--json", *addresses)
        shown = json.loads(output)
        check("items and hits of each node", [(0, 0)] * 4, [(it["items"], it["hits"]) for it in shown["nodes"]])
        check("whether the new pool is empty", "holds", shown["premises"]["empty"])

        _, output, _ = fleet.run("watch", "--config", few, "--once", *addresses)
        lines = output.decode().splitlines()
        for pool, name in ((0, told[0]), (0, memcacheds[17].address), (1, told[1]), (1, memcacheds[16].address)):
            check(f"the line of {name}", [f"{pool:>4} {name:<24}{0:>8}{0:>8}"], [it for it in lines if f" {name} " in it])
        check("the line of the premise", ["new pool empty      holds, pool 1 holds 0 items"], [it for it in lines if it.startswith("new pool")])

        _, output, _ = fleet.run("watch", "--config", many, "--once", *addresses)
        lines = output.decode().splitlines()
        check("the line of a large pool", ["   1 17 nodes, 17 seen, 0 items, 0 hits"], [it for it in lines if it.startswith("   1 ")])
        check("the line of the premise", ["new pool empty      holds, pool 1 holds 0 items"], [it for it in lines if it.startswith("new pool")])

        _, output, _ = fleet.run("watch", "--config", unreached, "--once", *addresses)
        lines = output.decode().splitlines()
        check("the line of a node that isn't reached", [f"   1 {'127.0.0.1:1':<24}{'-':>8}{'-':>8}"], [it for it in lines if "127.0.0.1:1 " in it])
        wanted = ["new pool empty      unseen, pool 1: 1 of 2 nodes seen, 0 items"]
        check("the line of the premise", wanted, [it for it in lines if it.startswith("new pool")])
