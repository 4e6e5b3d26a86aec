"""Requests and their answers: their order, their pieces, and the phases in which they are issued."""
import statistics
import threading
import time

from client import DELETED, MISS, NOT_FOUND, STORED, delete_of, get_of, hits, set_of
from fake import FakeNode, answering
from helping import LARGEST, VALUE, closing, in_threads
from reading import wait_until_read
from running import case
from serving import Proxy, StoreNode, begins_late, some_node
from wanted import check, check_true


@case
def commands_are_served():
    with closing(some_node()) as node, Proxy([node.address]) as proxy:
        client = proxy.client()
        client.ask(get_of("k"), MISS)
        client.ask(set_of("k", VALUE, flags=7), STORED)
        client.ask(get_of("k"), hits(("k", VALUE, 7)))
        client.ask(get_of("k", "other"), hits(("k", VALUE, 7)))
        client.ask(delete_of("k"), DELETED)
        client.ask(delete_of("k"), NOT_FOUND)
        client.send(set_of("n", VALUE, noreply=True), get_of("n"))
        client.expect(hits(("n", VALUE)))
        client.send(delete_of("n", noreply=True), get_of("n"))
        client.expect(MISS)
        client.quit()


@case
def many_requests_without_answers():
    """Requests whose client wants no answer are begun, however many it sends at once."""
    with closing(some_node()) as node, Proxy([node.address]) as proxy:
        client = proxy.client()
        client.send(*[set_of(f"k{n}", f"v{n}", noreply=True) for n in range(500)], get_of("k499"))
        client.expect(hits(("k499", "v499")))


@case
def answers_are_in_order():
    with closing(StoreNode(), StoreNode(), StoreNode()) as nodes, Proxy([it.address for it in nodes], loops=2) as proxy:
        keys = [f"k{n}" for n in range(300)]

        def work(name):
            client = proxy.client()
            client.send(*[set_of(f"{key}.{name}", f"{key} of {name}") for key in keys])
            client.expect(STORED * len(keys))
            client.send(*[get_of(f"{key}.{name}") for key in keys])
            client.expect(b"".join(hits((f"{key}.{name}", f"{key} of {name}")) for key in keys))
            client.send(get_of(*[f"{key}.{name}" for key in keys]))
            client.expect(hits(*[(f"{key}.{name}", f"{key} of {name}") for key in keys]))

        in_threads(*[lambda name=name: work(name) for name in range(8)])


@case
def replies_come_in_any_pieces():
    replies = {get_of("k"): hits(("k", "hel\r\nlo", 3)), set_of("k", "v"): STORED, delete_of("k"): NOT_FOUND}
    asked = [(request, reply, at) for request, reply in replies.items() for at in range(1, len(reply) + 1)]
    pieces = [[reply[:at], reply[at:]] if at < len(reply) else [bytes([it]) for it in reply] for _, reply, at in asked]
    with closing(FakeNode(answering(pieces))) as node, Proxy([node.address]) as proxy:
        client = proxy.client()
        for request, reply, _ in asked:
            client.ask(request, reply)


@case
def requests_come_in_any_pieces():
    with closing(StoreNode()) as node, Proxy([node.address]) as proxy:
        text = set_of("k", "ab\r\ncd") + get_of("k") + delete_of("k")
        wanted = STORED + hits(("k", "ab\r\ncd")) + DELETED
        for at in range(1, len(text)):
            client = proxy.client()
            client.send(text[:at])
            wait_until_read(client.socket)
            client.send(text[at:])
            client.expect(wanted)
            client.close()
        client = proxy.client()
        for byte in text:
            client.send(bytes([byte]))
            wait_until_read(client.socket)
        client.expect(wanted)


@case
def small_packets_go_at_once():
    """Neither a client nor a node waits for the other end's late acknowledgement of an earlier packet."""

    def talk(link):
        begins_late(link.stream)
        while True:
            request = link.request()
            if not request:
                return
            begins_late(link.stream)
            time.sleep(0.005)
            link.send(MISS)

    with closing(FakeNode(talk)) as node, Proxy([node.address]) as proxy:
        client = proxy.client()
        spans = []
        for _ in range(21):
            begins_late(client.socket)
            client.send(get_of("k"), get_of("k"))
            client.expect(MISS)
            begun = time.monotonic()
            begins_late(client.socket)
            client.expect(MISS)
            spans.append(time.monotonic() - begun)
        check_true(f"the second answer: {statistics.median(spans):.4f} s", statistics.median(spans) < 0.02)


@case
def a_request_goes_out_at_once():
    """It waits neither for another event nor for the time."""
    with closing(some_node()) as node, Proxy([node.address]) as proxy:
        client = proxy.client()
        spans = []
        for _ in range(51):
            begun = time.monotonic()
            client.ask(get_of("k"), MISS)
            spans.append(time.monotonic() - begun)
        check_true(f"an answer: {statistics.median(spans):.4f} s", statistics.median(spans) < 0.015)


@case
def small_requests_go_at_once():
    """A node that answers two requests at once, and acknowledges the first one late, has the second one soon."""

    def talk(link):
        while True:
            for _ in range(2):
                begins_late(link.stream)
                if not link.request():
                    return
            link.send(MISS * 2)

    with closing(FakeNode(talk)) as node, Proxy([node.address]) as proxy:
        client = proxy.client()
        spans = []
        for _ in range(21):
            client.send(get_of("k"))
            time.sleep(0.01)
            begun = time.monotonic()
            client.send(get_of("k"))
            client.expect(MISS * 2)
            spans.append(time.monotonic() - begun)
        check_true(f"both answers: {statistics.median(spans):.4f} s", statistics.median(spans) < 0.02)


@case
def large_values_beside_small_ones():
    """Values of a megabyte go to and fro over the link that carries small ones too."""
    with closing(some_node()) as node, Proxy([node.address]) as proxy:
        large, small = proxy.client(), proxy.client()
        small.ask(set_of("k", VALUE), STORED)
        ended = threading.Event()
        waits = []

        def move():
            for _ in range(10):
                large.ask(set_of("large", LARGEST), STORED)
                large.ask(get_of("large"), hits(("large", LARGEST)))
            ended.set()

        def ask():
            while not ended.is_set():
                begun = time.monotonic()
                small.ask(get_of("k"), hits(("k", VALUE)))
                waits.append(time.monotonic() - begun)

        in_threads(move, ask)
        check_true(f"small values beside large ones come soon: {max(waits):.3f} s", max(waits) < 2)


@case
def a_large_value_is_read_where_nothing_else_happens():
    """All nodes are there, so nothing but its bytes wakes the loop."""
    with closing(some_node(), StoreNode()) as (old, new), Proxy([old.address], [new.address]) as proxy:
        client = proxy.client()
        for _ in range(3):
            client.ask(set_of("large", LARGEST), STORED)
            client.ask(get_of("large"), hits(("large", LARGEST)))


@case(waits=True)
def a_phase_begins_within_a_pipeline():
    with closing(StoreNode(), StoreNode()) as (old, new):
        start = int(time.time()) + 2
        with Proxy([old.address], [new.address], start=start, interval=1) as proxy:
            client = proxy.client()
            sent = taken = 0
            while time.time() < start + 2.5 or taken < sent:
                if time.time() < start + 2.5 and sent < taken + 50:
                    client.send(*[delete_of(f"k{sent + n}") + get_of(f"k{sent + n}") for n in range(10)])
                    sent += 10
                else:
                    client.expect(NOT_FOUND + MISS)
                    taken += 1
        names = [f"k{n}".encode() for n in range(sent)]
        at_old = [words[1] for words in old.asked(b"delete")]
        at_new = [words[1] for words in new.asked(b"delete")]
        check("the deletes at the old pool are the first ones", names[: len(at_old)], at_old)
        check("the deletes at the new pool are the last ones", names[len(names) - len(at_new) :], at_new)
        check_true("in between, deletes go to both", len(at_old) + len(at_new) > len(names))
        gets_old = [words[1] for words in old.asked(b"get")]
        gets_new = [words[1] for words in new.asked(b"get")]
        check("each get goes to one pool, first to the old one", names, gets_old + gets_new)
        check_true("each pool has gets", gets_old and gets_new)
        for moment, line in new.lines:
            check_true(f"nothing goes to the new pool before its time: {line}", moment >= start + line.startswith(b"get"))
