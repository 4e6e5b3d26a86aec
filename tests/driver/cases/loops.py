"""Loops, their links, their clients, and what they tell of themselves."""
import fcntl
import pathlib
import struct
import termios
import threading
import time

from client import MISS, PATIENCE, get_of, hits
from clocks import MovedClock
from fake import FakeNode, SlowNode
from helping import LARGEST, closing, in_threads, wait_until
from placing import key_at
from running import case
from serving import HOME, Proxy, StoreNode
from wanted import check, check_true


@case
def links_are_loops_times_nodes():
    with closing(StoreNode(), StoreNode(), StoreNode()) as nodes:
        with Proxy([it.address for it in nodes[:2]], [nodes[2].address], loops=3) as proxy:
            clients = [proxy.client() for _ in range(30)]
            for _ in range(3):
                for it in clients:
                    it.ask(get_of("k"), MISS)
            check("links at each node", [3, 3, 3], [len(it.links) for it in nodes])
            check("threads", 4, proxy.status("Threads"))
            check("files", 3 * (3 + 2) + 30 + 4, proxy.open_files())


@case
def clients_are_shared_out():
    """Thirty clients of three loops: each loop's link carries what ten of them ask."""

    def talk(link):
        while True:
            request = link.request()
            if not request:
                return
            asked[link.number] = asked.get(link.number, 0) + 1
            link.send(MISS)

    asked = {}
    with closing(FakeNode(talk)) as node, Proxy([node.address], loops=3) as proxy:
        clients = [proxy.client() for _ in range(30)]
        for it in clients:
            it.ask(get_of("k"), MISS)
        check("requests over each link", [10, 10, 10], sorted(asked.values()))


@case
def the_next_client_goes_where_the_fewest_are():
    """Two clients of one loop leave, and so the next two come to that loop."""
    asked = {}

    def talk(link):
        while request := link.request():
            asked[request] = link.number
            link.send(MISS)

    with closing(FakeNode(talk)) as node, Proxy([node.address], loops=2, asks=True) as proxy:
        clients = {f"k{n}": proxy.client() for n in range(4)}
        for key, it in clients.items():
            it.ask(get_of(key), MISS)
        first = [key for key in clients if asked[get_of(key)] == asked[get_of("k0")]]
        check("clients of the first one's loop", 2, len(first))
        for key in first:
            clients[key].quit()
        wait_until("the end of two clients", lambda: proxy.tell().counts["left"] == 2)
        later = [proxy.client() for _ in range(2)]
        for number, it in enumerate(later):
            it.ask(get_of(f"later{number}"), MISS)
        links = [asked[get_of(f"later{number}")] for number in range(2)]
        check("the links over which the next two ask", [asked[get_of("k0")]] * 2, links)


@case
def it_ends_when_it_was_told_to():
    with closing(StoreNode()) as node:
        with Proxy([node.address], loops=2, clients=5) as proxy:
            clients = [proxy.client() for _ in range(5)]
            clients[0].quit()
            clients[1].stop_sending()
            clients[1].expect_end()
            clients[2].ask(b"get " + b"k" * 251 + b"\r\n", b"CLIENT_ERROR bad key\r\n")
            clients[2].expect_end()
            clients[3].ask(get_of("k"), MISS)
            clients[3].reset()
            clients[4].ask(get_of("k"), MISS)
            clients[4].close()
            proxy.expect_served(4)


@case
def a_loop_without_clients_ends_with_the_others():
    """All nodes are there, so nothing happens to it but that it is told."""
    with closing(StoreNode(), StoreNode()) as (old, new):
        with Proxy([old.address], [new.address], loops=3, clients=1) as proxy:
            client = proxy.client()
            client.ask(get_of("k"), MISS)
            client.quit()
            proxy.expect_served(1)


@case
def it_ends_after_clients_that_had_to_wait():
    with closing(StoreNode()) as node, Proxy([node.address], clients=4, most_clients=1) as proxy:
        clients = [proxy.client() for _ in range(4)]
        time.sleep(0.2)
        begun = time.monotonic()
        for it in clients:
            it.ask(get_of("k"), MISS)
            it.quit()
        check_true(f"each comes soon after the one before it: {time.monotonic() - begun:.1f} s", time.monotonic() - begun < 2)
        proxy.expect_served(4)


@case
def loops_tell_of_themselves():
    with closing(StoreNode(), StoreNode()) as nodes, Proxy([it.address for it in nodes], loops=2, asks=True) as proxy:
        clients = [proxy.client() for _ in range(4)]
        for it in clients:
            it.ask(get_of(key_at(0, 2)), MISS)
            it.ask(get_of(key_at(1, 2), key_at(0, 2)), MISS)
        told = proxy.tell()
        check("what is counted", {"loops": 2, "came": 4, "left": 0, "held": 0, "under_way": 0, "full": 0}, told.counts)
        check("links to the first node", {"up": 2, "dials": 2, "breaks": 0, "carried": 8, "lost": 0}, told.nodes[0])
        check("links to the second node", {"up": 2, "dials": 2, "breaks": 0, "carried": 4, "lost": 0}, told.nodes[1])
        check("what is heard of the nodes", (["LinkUp(0)"] * 2, ["LinkUp(1)"] * 2), (proxy.heard_of(0), proxy.heard_of(1)))
        clients[0].quit()
        clients[1].reset()
        wait_until("the end of two clients", lambda: proxy.tell().counts["left"] == 2)
        nodes[0].links[0].close()
        proxy.hear("LinkDown(0, Ended)")
        wait_until("the link's coming again", lambda: proxy.tell().nodes[0]["up"] == 2)
        check("breaks", [1, 0], [it["breaks"] for it in proxy.tell().nodes[:2]])


@case
def a_clock_that_goes_back_is_heard_of():
    clock = MovedClock(pathlib.Path(HOME, "clock"))
    with closing(StoreNode()) as node, Proxy([node.address], asks=True, before=clock.words()) as proxy:
        client = proxy.client()
        client.ask(get_of("k"), MISS)
        clock.move(-10)
        for _ in range(3):
            client.ask(get_of("k"), MISS)
        proxy.hear("ClockWentBack")
        check("how often it went back", 1, proxy.heard.count("ClockWentBack"))


@case
def questions_hinder_nobody():
    with closing(StoreNode()) as node, Proxy([node.address], asks=True) as proxy:
        client = proxy.client()

        def ask():
            waits = []
            for _ in range(200):
                begun = time.monotonic()
                client.ask(get_of("k"), MISS)
                waits.append(time.monotonic() - begun)
            check_true(f"answers beside questions come soon: {max(waits):.3f} s", max(waits) < 1)

        def question():
            for _ in range(100):
                proxy.tell()

        in_threads(ask, question)


@case(waits=True)
def a_proxy_that_was_stopped_goes_on():
    """While it is stopped, a reply and a client wait for longer than they may. What came meanwhile counts before the time does."""
    with closing(SlowNode()) as node, Proxy([node.address], leg_millis=1000, client_seconds=2) as proxy:
        client, other = proxy.client(), proxy.client()
        client.send(get_of("k"))
        node.wait_for(1)
        proxy.stop()
        node.answer_all({"k": "v"})
        other.send(get_of("l"))
        time.sleep(3)
        proxy.go_on()
        client.expect(hits(("k", "v")))
        node.wait_for(1)
        node.answer_all({})
        other.expect(MISS)


def all_is_there(stream):
    """Whether the system at the other end has all that was sent."""
    return struct.unpack("i", fcntl.ioctl(stream, termios.TIOCOUTQ, struct.pack("i", 0)))[0] == 0


@case(waits=True)
def what_came_before_a_stop_ended_counts_however_much_it_is():
    """While a proxy is stopped, a reply comes of which it reads a share in each of its turns. All of it counts before the time does."""
    found, last = hits(("k", LARGEST)), hits(("k", LARGEST[:250000]))

    def talk(link):
        while link.request():
            if asked.is_set():
                proxy.stop()
            link.send(last if asked.is_set() else found)
            if asked.is_set():
                wait_until("a reply that is there", lambda: all_is_there(link.stream))
                sent.set()

    asked, sent = threading.Event(), threading.Event()
    with closing(FakeNode(talk)) as node, Proxy([node.address], leg_millis=1000) as proxy:
        client = proxy.client()
        for _ in range(10):  # so that the system has room for a quarter of that
            client.ask(get_of("k"), found)
        asked.set()
        client.send(get_of("k"))
        try:
            check_true("the reply is there", sent.wait(PATIENCE))
            time.sleep(2)
        finally:
            proxy.go_on()
        client.expect(last)
