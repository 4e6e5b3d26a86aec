"""What is left of connections and legs that are over: nothing, after twenty thousand as after the first thousand."""
import pathlib
import subprocess
import sys
import time

from beside import MIB, UNPROVED, in_threads, told_node, told_proxy, wait_for_links, wait_until
from children import CHILDREN
from client import MISS, NOT_FOUND, STORED, delete_of, get_of, hits, set_of
from fake import FakeNode
from fleet import Fleet
from placing import key_at
from running import case
from scraping import scraped, wait_for
from wanted import Wrong, check, check_true

KNOCKING = pathlib.Path(__file__).resolve().parent.parent / "knocking.py"
FIRST, MANY, LEGS = (1500, 8000, 600) if UNPROVED else (1000, 20_000, 5000)
BY_THREADS = MANY // 5
ALLOWED = 2 * MIB  # of memory that is taken for no good: 40,000 times fifty bytes
LIMIT = 120  # seconds for all of one kind
BREAKING = 24  # nodes that break off
TOGETHER = 16 if UNPROVED else 64  # clients that ask for keys of all of them at once


class Size:
    """What a service has: open files, threads and resident memory. A scraper that is just over still has some of it, so the least of
    a few is taken."""

    def __init__(self, service):
        seen = []
        for _ in range(10):
            seen.append((service.open_files(), service.thread_count(), service.memory("VmRSS")))
            time.sleep(0.03)
        self.files, self.threads, self.resident = map(min, zip(*seen))


def allowed(service):
    """How much more memory a service may have: more where it isn't proved, and still more where that has a thread for each client."""
    return (6 * MIB if service.loops else 24 * MIB) if UNPROVED else ALLOWED


def knock(address, *words):
    """Starts connections in a process of their own."""
    return CHILDREN.start(
        [sys.executable, str(KNOCKING), address, *map(str, words)], stdin=subprocess.DEVNULL, stdout=subprocess.DEVNULL,
        stderr=subprocess.PIPE,
    )


def expect_done(*knockers):
    """They end by themselves, without a fault."""
    for it in knockers:
        try:
            _, said = it.communicate(timeout=LIMIT)
        except subprocess.TimeoutExpired:
            raise Wrong("connections by the thousand", "an end", "they go on") from None
        finally:
            CHILDREN.end(it)
        check("what was wrong with connections by the thousand", (0, b""), (it.returncode, said))


def knock_in_two(address, kind, count):
    """So many connections of a kind, by two processes."""
    expect_done(*(knock(address, kind, count // 2) for _ in range(2)))


def open_told(service):
    """How many connections it says are open."""
    return scraped(service.metrics)[("migctl_open_connections",)]


def expect_size(service, before, what):
    """It comes to have no more open files and threads than before, and no more memory but for a little."""
    try:
        wait_until("as before", lambda: service.open_files() <= before.files and service.thread_count() <= before.threads)
    except Wrong:
        raise Wrong(
            f"open files and threads of {service.name()} after {what}",
            (before.files, before.threads), (service.open_files(), service.thread_count()),
        ) from None
    wait_until(
        f"{service.memory('VmRSS'):,} bytes of {service.name()} after {what} to be {before.resident + allowed(service):,} at most",
        lambda: service.memory("VmRSS") <= before.resident + allowed(service), 5,
    )


def come_and_go(service, count, idle):
    """So many connections that end well and so many that break off leave nothing, where none are open but so many that are idle."""
    for kind in ("well", "broken"):
        knock_in_two(service.address, kind, FIRST)
    if service.metrics:
        wait_for(service.metrics, ("migctl_open_connections",), idle)
    time.sleep(0.2)
    before = Size(service)
    for kind in ("well", "broken"):
        knock_in_two(service.address, kind, count)
        if service.metrics:
            wait_for(service.metrics, ("migctl_open_connections",), idle)
        expect_size(service, before, f"{count} connections that ended {kind}")
    with service.client() as client:
        client.ask(set_of("k", "v") + get_of("k") + delete_of("k"), STORED + hits(("k", "v")) + b"DELETED\r\n")


@case
def connections_that_are_over_leave_nothing_at_a_node():
    """Twenty thousand that ended well and as many that broke off within a request: its files, threads and memory are as after the
    first thousand, and it tells that none is open."""
    with Fleet() as fleet:
        come_and_go(told_node(fleet), MANY, 0)


@case
def connections_that_are_over_leave_nothing_at_a_proxy():
    """The same of a proxy on loops, and of its node, whose connections are the links alone."""
    with Fleet() as fleet:
        node = told_node(fleet)
        proxy = told_proxy(fleet, fleet.config([node]), "--loops", "2")
        wait_for_links(proxy, node)
        come_and_go(proxy, MANY, 0)
        check("connections of its node", 2, open_told(node))
        samples = scraped(proxy.metrics)
        check("requests that are under way", 0, samples[("migctl_proxy_requests_under_way",)])


@case
def by_threads_connections_that_are_over_leave_nothing():
    """A fifth as many, at a node and at a proxy that have a thread for each."""
    with Fleet() as fleet:
        node = fleet.node()
        proxy = fleet.proxy_by_threads(fleet.config([node]))
        in_threads(*(lambda it=it: come_and_go(it, BY_THREADS, 0) for it in (node, proxy)))


def half_answered(link):
    """Answers by half a reply once something is asked, and ends the connection."""
    if link.request():
        link.send(b"VALUE k 0 30\r\nhalf")


@case
def legs_that_break_leave_nothing_at_a_proxy():
    """Five thousand, at nodes that end each connection within a reply: many clients ask for keys of all of them at once. Then nothing is under way, files, threads and memory are as after the first ones, and another node's keys are
    served."""
    with Fleet() as fleet:
        broken = [fleet.keep(FakeNode(half_answered)) for _ in range(BREAKING)]
        good = told_node(fleet)
        nodes = [*(it.address for it in broken), good.address]
        proxy = told_proxy(fleet, fleet.config(nodes), "--loops", "2")
        wait_for_links(proxy, *nodes)
        keys = [key_at(number, len(nodes)) for number in range(BREAKING)]

        def broken_legs():
            samples = scraped(proxy.metrics)
            carried = sum(number for name, number in samples.items() if name[0] == "migctl_proxy_legs_total" and name[3] == "carried")
            return samples[("migctl_proxy_leg_seconds_count",)] - carried

        def break_until(count):
            until = time.monotonic() + LIMIT
            while broken_legs() < count:
                check_true("legs break", time.monotonic() < until)
                wait_for_links(proxy, *nodes)
                expect_done(knock(proxy.address, "legs", TOGETHER, *keys))

        def settled():
            wait_for_links(proxy, *nodes)
            wait_for(proxy.metrics, ("migctl_open_connections",), 0)
            return Size(proxy)

        break_until(LEGS // 5)
        before = settled()
        break_until(LEGS)
        settled()
        expect_size(proxy, before, f"{LEGS} legs that broke")
        samples = scraped(proxy.metrics)
        check("requests that are under way", 0, samples[("migctl_proxy_requests_under_way",)])
        key = key_at(BREAKING, len(nodes))
        proxy.ask(set_of(key, "v") + get_of(key) + delete_of(key) + delete_of(key) + get_of(key),
                  STORED + hits((key, "v")) + b"DELETED\r\n" + NOT_FOUND + MISS)
        check("connections of the node that is well", 2, open_told(good))
