"""Nodes that answer wrongly, late or not at all, that come late or are stopped."""
import shutil
import socket
import statistics
import struct
import threading
import time

from client import LOST, MISS, PATIENCE, STORED, get_of, hits, set_of
from fake import FakeNode, FullQueue
from helping import VALUE, closing, wait_until
from placing import key_at
from ports import place_at
from running import case
from serving import Memcached, Proxy, StoreNode
from wanted import check, check_true


def broken_by(reply, wanted=LOST):
    """A node answers one request so, which loses the link, and the next ones well: by another link."""

    def talk(link):
        if link.number == 0:
            link.request()
            link.send(reply)
            link.request()
            return
        while link.request():
            link.send(MISS)

    with closing(FakeNode(talk)) as node, Proxy([node.address], asks=True) as proxy:
        client = proxy.client()
        client.ask(get_of("k"), wanted)
        proxy.ask_until(get_of("k"), MISS)
        client.ask(get_of("k"), MISS)
        check("links that were made", 2, len(node.links))
        proxy.tell()
        check("what is heard of the link", ["LinkUp(0)", "LinkDown(0, BadReply)", "LinkUp(0)"], proxy.heard_of(0))


@case
def a_node_answers_nonsense():
    broken_by(b"HELLO\r\n")


@case
def a_node_answers_another_key():
    broken_by(hits(("other", "value")))


@case
def a_node_answers_too_much():
    broken_by(MISS + MISS, MISS)


@case
def a_node_answers_half_and_closes():
    def talk(link):
        link.request()
        if link.number == 0:
            link.send(b"VALUE k 0 5\r\nhe")
            return
        link.send(MISS)
        link.request()

    with closing(FakeNode(talk)) as node, Proxy([node.address], asks=True) as proxy:
        proxy.ask(get_of("k"), LOST)
        proxy.ask_until(get_of("k"), MISS)
        proxy.hear("LinkDown(0, Ended)")


@case
def a_node_breaks_off():
    """Its end of the connection is gone, and not closed."""

    def talk(link):
        link.request()
        if link.number == 0:
            link.stream.setsockopt(socket.SOL_SOCKET, socket.SO_LINGER, struct.pack("ii", 1, 0))
            link.lines.close()
            link.stream.close()

    with closing(FakeNode(talk)) as node, Proxy([node.address], asks=True) as proxy:
        proxy.ask(get_of("k"), LOST)
        proxy.hear("LinkDown(0, Broken)")


@case
def a_link_that_was_given_up_is_ended_at_once():
    """The node hears of it before it is dialled again."""
    spans = []

    def talk(link):
        begun = time.monotonic()
        link.send(b"HELLO\r\n")
        link.request()
        spans.append(time.monotonic() - begun)

    with closing(FakeNode(talk)) as node, Proxy([node.address]):
        wait_until("five links", lambda: len(spans) >= 5)
    check_true(f"the fifth one, with .8 s to the next, ends at once: {spans}", spans[4] < 0.4)


@case(waits=True)
def a_leg_has_its_time_after_a_rest():
    """All nodes are there, and nothing happened for longer than a leg may take."""

    def talk(link):
        while link.request():
            time.sleep(0.3)
            link.send(MISS)

    with closing(FakeNode(talk), StoreNode()) as (old, new):
        with Proxy([old.address], [new.address], leg_millis=1000) as proxy:
            client = proxy.client()
            for _ in range(2):
                time.sleep(1.5)
                client.ask(get_of("k"), MISS)


@case
def time_alone_loses_a_leg():
    """All nodes are there, and nothing else happens."""

    def talk(link):
        while link.request():
            pass

    with closing(FakeNode(talk), StoreNode()) as (silent, new):
        with Proxy([silent.address], [new.address], leg_millis=300) as proxy:
            proxy.ask(get_of("k"), LOST)


@case
def time_alone_dials_again():
    """All nodes are there, and nothing else happens once a link has ended."""

    def talk(link):
        link.request()
        if link.number > 0:
            link.send(MISS)
            link.request()

    with closing(FakeNode(talk), StoreNode()) as (old, new), Proxy([old.address], [new.address]) as proxy:
        client = proxy.client()
        time.sleep(0.2)
        client.ask(get_of("k"), LOST)
        wait_until("a second link", lambda: len(old.links) == 2)
        client.ask(get_of("k"), MISS)


@case
def a_node_answers_nothing():
    def talk(link):
        while link.request():
            if link.number > 0:
                link.send(MISS)

    with closing(FakeNode(talk)) as node, Proxy([node.address], leg_millis=300, asks=True) as proxy:
        client = proxy.client()
        begun = time.monotonic()
        client.send(*[get_of("k")] * 5)
        client.expect(LOST * 5)
        waited = time.monotonic() - begun
        check_true(f"a leg is lost in time: {waited:.3f} s", 0.3 <= waited < 1)
        proxy.hear("LinkDown(0, Silent)")
        proxy.ask_until(get_of("k"), MISS)
        client.ask(get_of("k"), MISS)


@case(waits=True)
def a_node_comes_late():
    place = place_at("127.0.0.1")
    with closing(StoreNode()) as there:
        with Proxy([there.address, place.address()], asks=True) as proxy:
            near, far = key_at(0, 2), key_at(1, 2)
            client = proxy.client()
            client.ask(get_of(near), MISS)
            for _ in range(20):
                client.ask(get_of(far), LOST)
                time.sleep(0.05)
            client.ask(get_of(near), MISS)
            idle = proxy.processor_seconds()
            time.sleep(0.5)
            check_true("who waits for a node works little", proxy.processor_seconds() - idle < 0.2)
            listener = socket.create_server(("127.0.0.1", place.port))
            listener.settimeout(PATIENCE)
            begun = time.monotonic()
            stream, _ = listener.accept()
            check_true(f"the node is dialled soon: {time.monotonic() - begun:.2f} s", time.monotonic() - begun < 3)
            far_link = stream.makefile("rb")

            def answer():
                while far_link.readline():
                    stream.sendall(MISS)

            threading.Thread(target=answer, daemon=True).start()
            proxy.ask_until(get_of(far), MISS)
            client.ask(get_of(far), MISS)
            proxy.tell()
            check("what is heard of the node", ["LinkDown(1, NotReached)", "LinkUp(1)"], proxy.heard_of(1))
            stream.shutdown(socket.SHUT_RDWR)
            listener.close()
    place.close()


@case(waits=True)
def pauses_between_dials_grow():
    dials = []

    def talk(link):
        dials.append(time.monotonic())  # and is closed at once

    with closing(FakeNode(talk)) as node, Proxy([node.address]):
        until = time.monotonic() + PATIENCE
        while len(dials) < 7 and time.monotonic() < until:
            time.sleep(0.05)
    check_true("the node was dialled seven times", len(dials) >= 7)
    pauses = [later - earlier for earlier, later in zip(dials, dials[1:])]
    for number, wanted in enumerate((0.05, 0.1, 0.2, 0.4, 0.8, 1.6)):
        check_true(f"pause {number} of {pauses}", wanted - 0.01 <= pauses[number] < wanted + 0.4)


@case(waits=True)
def the_pause_after_a_link_that_stood_is_short():
    """Pauses grow while links break at once. After a link that stood for two seconds they grow from the shortest on."""
    moments = []

    def talk(link):
        came = time.monotonic()
        if link.number == 4:
            time.sleep(2.2)
        moments.append((came, time.monotonic()))  # and is closed

    with closing(FakeNode(talk)) as node, Proxy([node.address]):
        wait_until("eight links", lambda: len(moments) >= 8)
    pauses = [later[0] - earlier[1] for earlier, later in zip(moments, moments[1:])]
    for number, wanted in enumerate((0.05, 0.1, 0.2, 0.4, 0.05, 0.1, 0.2)):
        check_true(f"pause {number} of {pauses}", wanted - 0.01 <= pauses[number] < wanted + 0.4)


@case(waits=True)
def a_dial_may_take_as_long_as_a_leg():
    """The first one and later ones: within two and a half seconds there are three of a second."""
    with closing(StoreNode(), FullQueue()) as (there, silent):
        with Proxy([there.address, silent.address], leg_millis=1000, asks=True) as proxy:
            time.sleep(2.5)
            dials = proxy.tell().nodes[1]["dials"]
            check_true(f"two or three dials: {dials}", dials in (2, 3))


@case
def a_dial_ends_in_time():
    with closing(StoreNode(), FullQueue()) as (there, silent):
        with Proxy([there.address, silent.address], leg_millis=200, asks=True) as proxy:
            near, far = key_at(0, 2), key_at(1, 2)
            client = proxy.client()
            begun = time.monotonic()
            while time.monotonic() < begun + 1.5:
                client.ask(get_of(near), MISS)
                client.ask(get_of(far), LOST)
                time.sleep(0.02)
            check("files that are open", 2 + 4 + 1 + 4 - 1, proxy.open_files())
            proxy.tell()
            check("what is heard of the silent node", ["LinkDown(1, NotReached)"], proxy.heard_of(1))


def slowness(client, control, key):
    """How much longer a get of a key takes a client than one of another proxy, each in turn: so it doesn't matter what else runs here."""
    spans = {client: [], control: []}
    for _ in range(200):
        for it in (client, control):
            begun = time.monotonic()
            it.ask(get_of(key), hits((key, VALUE)))
            spans[it].append(time.monotonic() - begun)
    return statistics.median(spans[client]) / statistics.median(spans[control])


def keeps_its_rate(when, client, control, key, before):
    """The rate is at least nine tenths of what it was, in one of some measurements."""
    found = []
    for _ in range(4):
        found.append(slowness(client, control, key))
        if found[-1] <= before / 0.9:
            return
    check_true(f"the time of a get at a node that is there, {when}: {found} of another proxy's, and {before} before", False)


@case
def one_of_three_nodes_stops():
    """While a node of three is stopped, and twenty clients ask it for more than its link's queue may have, those of the others have
    nine tenths of their rate, and again once it goes on and was dialled again."""
    if not shutil.which("memcached"):
        return
    with closing(Memcached(), Memcached(), Memcached()) as nodes:
        addresses = [it.address for it in nodes]
        with Proxy(addresses, leg_millis=400, most_legs=64) as proxy, Proxy(addresses) as other:
            keys = [key_at(place, 3) for place in range(3)]
            clients = [proxy.client() for _ in range(3)]
            for it, key in zip(clients, keys):
                it.ask(set_of(key, VALUE), STORED)
            control = other.client()
            before = {place: max(slowness(clients[place], control, keys[place]) for _ in range(3)) for place in (0, 2)}
            nodes[1].stop()
            try:
                crowd = [proxy.client() for _ in range(20)]
                for it in crowd:
                    it.send(*[get_of(keys[1])] * 40)
                for place, slow in before.items():
                    keeps_its_rate("while another is stopped", clients[place], control, keys[place], slow)
                for it in crowd:
                    it.expect(LOST * 40)
                clients[0].send(get_of(keys[0]), get_of(keys[1]), get_of(keys[2]))
                clients[0].expect(hits((keys[0], VALUE)) + LOST + hits((keys[2], VALUE)))
            finally:
                nodes[1].go_on()
            proxy.ask_until(get_of(keys[1]), hits((keys[1], VALUE)))
            clients[1].ask(get_of(keys[1]), hits((keys[1], VALUE)))
            for place, slow in before.items():
                keeps_its_rate("once that goes on", clients[place], control, keys[place], slow)
