"""Clients that come and go, end half of their connection, are silent, or don't read."""
import contextlib
import shutil
import socket
import subprocess
import time

from client import DELETED, MISS, PATIENCE, STORED, Client, delete_of, get_of, hits, set_of
from fake import FakeNode, SlowNode
from helping import LARGEST, VALUE, closing, in_threads, is_proved, wait_until
from running import case
from serving import Proxy, StoreNode, some_node
from wanted import check, check_true


@case
def clients_come_and_go():
    with closing(StoreNode()) as node, Proxy([node.address], loops=2) as proxy:
        proxy.ask(set_of("k", VALUE), STORED)
        time.sleep(0.1)
        before = proxy.open_files()
        for turn in range(40):
            clients = [proxy.client() for _ in range(10)]
            clients[0].send(get_of("k"))
            clients[1].send(get_of("k"), get_of("k"), b"get k")
            clients[2].ask(get_of("k"), hits(("k", VALUE)))
            clients[3].send(b"set k 0 0 10\r\nab")
            clients[4].ask(b"hello\r\n", b"ERROR\r\n")
            clients[5].send(*[get_of("k")] * 200)
            clients[6].send(b"quit\r\n")
            for number, it in enumerate(clients):
                if (number + turn) % 2:
                    it.reset()
                else:
                    it.close()
            proxy.clients.clear()
        proxy.ask(get_of("k"), hits(("k", VALUE)))
        wait_until("files that are open once all have gone", lambda: proxy.open_files() == before)


@case
def ten_thousand_clients_come_and_go():
    with closing(StoreNode()) as node, Proxy([node.address], loops=2, files=1024, asks=True) as proxy:
        wait_until("the links", lambda: proxy.tell().nodes[0]["up"] == 2)
        before = proxy.open_files()

        def come_and_go():
            for _ in range(25):
                clients = [Client(proxy.address) for _ in range(100)]
                for it in clients:
                    it.send(get_of("k"))
                for number, it in enumerate(clients):
                    if number % 4:
                        it.expect(MISS)
                    if number % 2:
                        it.close()
                    else:
                        it.reset()

        in_threads(*[come_and_go] * 4)
        wait_until("the end of ten thousand clients", lambda: proxy.tell().counts["left"] == 10000)
        check("clients that came", 10000, proxy.tell().counts["came"])
        wait_until("files that are open once all have gone", lambda: proxy.open_files() == before)
        proxy.ask(get_of("k"), MISS)


@case
def a_client_that_never_reads_hinders_nobody():
    with closing(some_node()) as node, Proxy([node.address]) as proxy:
        proxy.ask(set_of("large", LARGEST[:100000]), STORED)
        proxy.ask(set_of("k", VALUE), STORED)
        memory = proxy.status("VmRSS")
        greedy = proxy.client(little_room=True)
        greedy.socket.setblocking(False)
        with contextlib.suppress(BlockingIOError):
            for _ in range(20000):
                greedy.socket.send(get_of("large") * 10)
        waits = []
        other = proxy.client()
        for _ in range(200):
            begun = time.monotonic()
            other.ask(get_of("k"), hits(("k", VALUE)))
            waits.append(time.monotonic() - begun)
        check_true(f"answers beside it come soon: {max(waits):.3f} s", max(waits) < (1 if is_proved() else 20))
        grown = proxy.status("VmRSS") - memory
        check_true(f"what isn't read takes little memory: {grown} kB", grown < 64 * 1024 or not is_proved())
        idle = proxy.processor_seconds()
        time.sleep(1)
        check_true("who waits for a reader works little", proxy.processor_seconds() - idle < 0.3)
        greedy.close()
        other.ask(get_of("k"), hits(("k", VALUE)))


@case
def a_slow_reader_gets_all():
    with closing(some_node()) as node, Proxy([node.address], most_unread=5000) as proxy:
        proxy.ask(set_of("k", b"w" * 3000), STORED)
        client = proxy.client(little_room=True)
        count = 1000

        def send():
            client.send(*[get_of("k")] * count)

        def take():
            time.sleep(0.5)
            client.expect(hits(("k", b"w" * 3000)) * count)

        in_threads(send, take)


@case
def half_closed_clients():
    with closing(StoreNode()) as node, Proxy([node.address]) as proxy:
        proxy.ask(set_of("k", VALUE), STORED)
        for _ in range(50):
            client = proxy.client()
            client.send(*[get_of("k")] * 100)
            client.stop_sending()
            client.expect(hits(("k", VALUE)) * 100)
            client.expect_end()
            client.close()
        client = proxy.client()
        client.stop_sending()
        client.expect_end()


@case
def half_closed_by_netcat():
    if not shutil.which("nc"):
        return
    with closing(StoreNode()) as node, Proxy([node.address]) as proxy:
        host, port = proxy.address.split(":")
        text = set_of("k", VALUE) + get_of("k") + delete_of("k") + get_of("k")
        ran = subprocess.run(["nc", "-N", host, port], input=text, capture_output=True, timeout=PATIENCE)
        check("what nc prints", STORED + hits(("k", VALUE)) + DELETED + MISS, ran.stdout)


@case(waits=True)
def silent_clients_are_closed():
    with closing(StoreNode()) as node, Proxy([node.address], client_seconds=1) as proxy:
        silent, lively = proxy.client(), proxy.client()
        begun = time.monotonic()
        while time.monotonic() < begun + 3:
            lively.ask(get_of("k"), MISS)
            time.sleep(0.1)
        silent.expect_end()
        lively.ask(get_of("k"), MISS)


@case
def many_clients():
    with closing(some_node()) as node, Proxy([node.address], loops=2, files=1024) as proxy:
        proxy.ask(set_of("k", VALUE), STORED)
        clients = [proxy.client() for _ in range(400)]
        for _ in range(3):
            for it in clients:
                it.send(get_of("k"))
            for it in clients:
                it.expect(hits(("k", VALUE)))


@case(quick=False)
def idle_clients_keep_no_buffer():
    with closing(some_node()) as node, Proxy([node.address], files=1024) as proxy:
        proxy.ask(set_of("large", LARGEST[:100000]), STORED)
        clients = [proxy.client() for _ in range(50)]
        memory = proxy.status("VmRSS")
        clients += [proxy.client() for _ in range(800)]
        for it in clients:
            it.ask(get_of("large"), hits(("large", LARGEST[:100000])))
        grown = proxy.status("VmRSS") - memory
        check_true(f"850 clients that were answered 100 kB: {grown} kB", grown < 4000)


@case(waits=True)
def who_sends_or_takes_is_not_silent():
    """A value that is sent, and answers that are read, in pieces for longer than a client may be silent."""
    with closing(some_node()) as node, Proxy([node.address], client_seconds=1, most_unread=5000) as proxy:
        proxy.ask(set_of("k", b"w" * 3000), STORED)

        def send():
            client, text = proxy.client(), set_of("l", VALUE * 2)
            for at in range(0, len(text), 20):
                client.send(text[at : at + 20])
                time.sleep(0.3)
            client.expect(STORED)

        def take():
            client, text = proxy.client(little_room=True), hits(("k", b"w" * 3000)) * 400
            client.send(*[get_of("k")] * 400)
            for at in range(0, len(text), 30000):
                client.expect(text[at : at + 30000])
                time.sleep(0.1)

        in_threads(send, take)


@case(waits=True)
def who_comes_late_has_its_time():
    """A client may be silent from when it came on, however long the proxy has run."""
    with closing(StoreNode()) as node, Proxy([node.address], client_seconds=3) as proxy:
        time.sleep(3.5)
        client = proxy.client()
        time.sleep(1.5)
        client.ask(get_of("k"), MISS)


@case(waits=True)
def who_is_silent_is_closed_where_nothing_else_happens():
    """All nodes are there, and clients that came before have left. It counts as one that ended with a fault."""
    with closing(StoreNode(), StoreNode()) as (old, new):
        with Proxy([old.address], [new.address], clients=6, client_seconds=1) as proxy:
            others, silent = [proxy.client() for _ in range(5)], proxy.client()
            for it in (*others, silent):
                it.ask(get_of("k"), MISS)
            begun = time.monotonic()
            for it in others:
                it.quit()
            silent.expect_end()
            check_true(f"it is closed soon: {time.monotonic() - begun:.1f} s", time.monotonic() - begun < 6)
            proxy.expect_served(5)


@case(waits=True)
def who_waits_for_a_slow_node_is_not_silent():
    """It waits for longer than a client may be silent, and may be silent for as long again from when it was answered."""
    with closing(SlowNode()) as node, Proxy([node.address], client_seconds=2) as proxy:
        client = proxy.client()
        client.send(get_of("k"))
        node.wait_for(1)
        time.sleep(5)
        node.answer_all({"k": "v"})
        client.expect(hits(("k", "v")))
        time.sleep(1.2)
        client.send(get_of("l"))
        node.wait_for(1)
        node.answer_all({})
        client.expect(MISS)
        begun = time.monotonic()
        client.expect_end()
        check_true(f"it is closed once it is silent itself: {time.monotonic() - begun:.1f} s", time.monotonic() - begun < 6)


@case(waits=True)
def who_is_owed_no_text_has_its_time_anew():
    """A request without an answer is one for which its client waits too, until the node has done it."""

    def talk(link):
        link.request()
        time.sleep(4.5)
        link.send(STORED)
        link.request()
        link.send(MISS)
        link.request()

    with closing(FakeNode(talk)) as node, Proxy([node.address], client_seconds=2) as proxy:
        client = proxy.client()
        client.send(set_of("k", VALUE, noreply=True))
        time.sleep(6)
        client.ask(get_of("k"), MISS)


def stays_while_held(**bounds):
    """A client whose request is held back for longer than a client may be silent is there when its turn comes."""
    with closing(SlowNode()) as node, Proxy([node.address], client_seconds=1, asks=True, **bounds) as proxy:
        first, held = proxy.client(), proxy.client()
        first.send(get_of("k0"))
        node.wait_for(1)
        held.send(get_of("k1"))
        wait_until("a request that is held back", lambda: proxy.tell().counts["held"] == 1)
        time.sleep(3.5)
        node.answer_all({})
        first.expect(MISS)
        node.wait_for(1)
        node.answer_all({})
        held.expect(MISS)


@case(waits=True)
def who_is_held_back_for_room_is_not_silent():
    stays_while_held(room=1)


@case(waits=True)
def who_is_held_back_for_a_link_is_not_silent():
    stays_while_held(most_legs=1)


@case(waits=True)
def who_takes_nothing_is_silent():
    """A client that reads none of its answers is ended, though some of its requests aren't answered yet."""
    with closing(some_node()) as node, Proxy([node.address], client_seconds=1, asks=True) as proxy:
        proxy.ask(set_of("large", LARGEST[:100000]), STORED)
        proxy.client(little_room=True).send(get_of("large") * 200)
        wait_until("the end of a client that takes nothing", lambda: proxy.tell().counts["left"] == 2)


@case
def who_breaks_off_before_it_has_read_is_gone():
    with closing(some_node()) as node, Proxy([node.address], asks=True) as proxy:
        proxy.ask(set_of("large", LARGEST[:100000]), STORED)
        client = proxy.client(little_room=True)
        client.send(get_of("large") * 100)
        wait_until("answers that aren't read", lambda: proxy.tell().nodes[0]["carried"] > 5)
        client.reset()
        wait_until("the end of a client that broke off", lambda: proxy.tell().counts["left"] == 2)
