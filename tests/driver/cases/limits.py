"""What is bounded: requests under way, legs of a link, clients, open files, memory."""
import contextlib
import threading
import time

import memory
from client import LOST, MISS, PATIENCE, STORED, Client, get_of, hits, set_of
from fake import FakeNode, SlowNode
from helping import LARGEST, MIB, VALUE, closing, expect_nothing, in_threads, wait_until
from placing import key_at
from running import case
from serving import Proxy, StoreNode, some_node
from wanted import Wrong, check, check_true

NO_MEMORY = b"SERVER_ERROR out of memory\r\n"


@case
def a_pipeline_leaves_turns_to_others():
    with closing(some_node()) as node, Proxy([node.address], room=64) as proxy:
        proxy.ask(set_of("k", VALUE), STORED)
        pipelining, other = proxy.client(), proxy.client()
        waits = []

        def send():
            pipelining.send(*[get_of("k")] * 10000)

        def take():
            pipelining.expect(hits(("k", VALUE)) * 10000)
            pipelining.done = True

        def ask():
            while not getattr(pipelining, "done", False) and len(waits) < 5000:
                begun = time.monotonic()
                other.ask(get_of("k"), hits(("k", VALUE)))
                waits.append(time.monotonic() - begun)

        in_threads(send, take, ask)
        check_true(f"many answers come beside a pipeline: {len(waits)}", len(waits) >= 4)
        check_true(f"an answer beside a pipeline comes soon: {max(waits):.3f} s", max(waits) < 2)


@case
def room_for_one():
    with closing(StoreNode()) as node, Proxy([node.address], room=1) as proxy:
        proxy.ask(set_of("k", VALUE), STORED)

        def work():
            client = proxy.client()
            client.send(*[get_of("k")] * 50)
            client.expect(hits(("k", VALUE)) * 50)

        in_threads(*[work] * 20)
        check("gets at the node", 1000, len(node.asked(b"get")))


@case
def a_place_for_one_leg():
    with closing(StoreNode(), StoreNode()) as nodes, Proxy([it.address for it in nodes], most_legs=1) as proxy:
        keys = [key_at(0, 2), key_at(1, 2)]

        def work():
            client = proxy.client()
            client.send(*[get_of(*keys), get_of(keys[0]), get_of(keys[1])] * 20)
            client.expect(MISS * 60)

        in_threads(*[work] * 10)


@case
def a_place_for_a_leg_is_taken_at_once():
    """Who waits for a place of a link goes on when a reply comes, and not when it is looked at the time."""
    with closing(StoreNode()) as node, Proxy([node.address], most_legs=1) as proxy:

        def work():
            client = proxy.client()
            client.send(*[get_of("k")] * 100)
            client.expect(MISS * 100)

        begun = time.monotonic()
        in_threads(*[work] * 4)
        check_true(f"four hundred requests: {time.monotonic() - begun:.1f} s", time.monotonic() - begun < 6)


@case
def places_that_come_free_together_are_taken_together():
    """Thirty-two replies come at once, and so the next thirty-two requests do."""
    moments = []

    def talk(link):
        for _ in range(2):
            for _ in range(32):
                link.request()
            moments.append(time.monotonic())
            link.send(MISS * 32)
        link.request()

    with closing(FakeNode(talk)) as node, Proxy([node.address], most_legs=32, files=128) as proxy:
        clients = [proxy.client() for _ in range(64)]
        for it in clients:
            it.send(get_of("k"))
        for it in clients:
            it.expect(MISS)
    check_true(f"they come within {moments[1] - moments[0]:.2f} s", moments[1] - moments[0] < 0.5)


def goes_first(proxy, node):
    """Of seven clients that are held back one after another the first goes first, however often all are looked at before."""
    clients = [proxy.client() for _ in range(8)]
    for number, it in enumerate(clients):
        it.send(get_of(f"k{number}"))
        wait_until("a request that is held back", lambda wanted=number: proxy.tell().counts["held"] == wanted)
    time.sleep(0.3)
    for number, it in enumerate(clients):
        node.wait_for(1)
        check("what reaches the node next", [get_of(f"k{number}")], node.requests())
        node.answer_all({})
        it.expect(MISS)


@case
def who_waits_for_room_first_goes_first():
    with closing(SlowNode()) as node, Proxy([node.address], room=1, asks=True) as proxy:
        goes_first(proxy, node)


@case
def who_waits_for_a_link_first_goes_first():
    with closing(SlowNode()) as node, Proxy([node.address], most_legs=1, asks=True) as proxy:
        goes_first(proxy, node)


@case
def who_left_gives_its_turn_to_nobody():
    """Who comes to the place of one that was held back and left isn't taken for that one, and waits behind those who were there."""
    near, far = key_at(0, 2), key_at(1, 2)
    with closing(SlowNode(), SlowNode()) as (full, other):
        with Proxy([full.address, other.address], most_legs=1, asks=True) as proxy:
            first, leaver, waiter = [proxy.client() for _ in range(3)]
            first.send(get_of(near))
            full.wait_for(1)
            leaver.send(get_of(far), get_of(near))
            other.wait_for(1)
            wait_until("a request that is held back", lambda: proxy.tell().counts["held"] == 1)
            waiter.send(set_of(near, "waiter"))
            wait_until("two requests that are held back", lambda: proxy.tell().counts["held"] == 2)
            leaver.reset()
            other.answer_all({})
            wait_until("the end of a client that broke off", lambda: proxy.tell().counts["left"] == 1)
            proxy.client().send(set_of(near, "late"))
            wait_until("three requests that are held back", lambda: proxy.tell().counts["held"] == 3)
            full.answer_all({})
            first.expect(MISS)
            full.wait_for(1)
            check("what reaches the node next", [set_of(near, "waiter")], full.requests())


def goes_round(**bounds):
    """Who asks one at a time gets its turn while another one pipelines over what there is of one."""
    with closing(StoreNode()) as node, Proxy([node.address], **bounds) as proxy:
        ended = threading.Event()
        asked = []

        def pipeline():
            client = proxy.client()
            client.send(*[get_of("k")] * 500)
            client.expect(MISS * 500)
            ended.set()

        def ask():
            client = proxy.client()
            while not ended.is_set():
                client.ask(get_of("k"), MISS)
                asked.append(1)

        in_threads(pipeline, ask)
        check_true(f"answers beside a pipeline over {bounds}: {len(asked)}", len(asked) >= 30)


@case
def room_goes_round():
    goes_round(room=1)


@case
def a_link_goes_round():
    goes_round(most_legs=1)


@case
def who_is_held_back_is_heard_of():
    """A client for whose request there is no room waits for its turn, which is heard once until nobody waits."""
    with closing(SlowNode()) as node, Proxy([node.address], room=1, asks=True) as proxy:
        clients = [proxy.client() for _ in range(3)]
        for turn in range(2):
            for number, it in enumerate(clients):
                it.send(get_of(f"k{number}"))
                node.wait_for(1)
            wait_until("requests that are held back", lambda: proxy.tell().counts["held"] == 2 * turn + 2)
            for _ in clients:
                node.wait_for(1)
                node.answer_all({})
            for it in clients:
                it.expect(MISS)
            proxy.tell()
            check("how often it is heard that clients wait", turn + 1, proxy.heard.count("ClientsHeldBack"))


@case(waits=True)
def few_descriptors():
    with closing(StoreNode()) as node, Proxy([node.address], asks=True) as proxy:
        proxy.ask(set_of("k", VALUE), STORED)
        crowd = [proxy.client() for _ in range(100)]
        time.sleep(0.3)
        crowd[0].ask(get_of("k"), hits(("k", VALUE)))
        idle = proxy.processor_seconds()
        time.sleep(1)
        check_true("who can't accept works little", proxy.processor_seconds() - idle < 0.3)
        check("files that are open", 64, proxy.open_files())
        proxy.hear("NoDescriptors")
        for it in node.links:  # all descriptors are taken, and a link breaks
            it.close()
        until = time.monotonic() + PATIENCE
        while True:
            crowd[1].send(get_of("k"))
            line = crowd[1].line()
            if line != LOST:
                crowd[1].expect(VALUE + b"\r\n" + MISS)
                break
            check_true("the link comes again, though clients have all other descriptors", time.monotonic() < until)
            time.sleep(0.02)
        begun = time.monotonic()
        for it in crowd[:60]:
            it.close()
        crowd[99].ask(get_of("k"), hits(("k", VALUE)))
        check_true(f"who waits comes soon: {time.monotonic() - begun:.1f} s", time.monotonic() - begun < 5)


@case(waits=True)
def further_clients_wait():
    """With as many clients as may be served at a time, further ones wait in the backlog until one has left."""
    with closing(StoreNode()) as node, Proxy([node.address], loops=2, most_clients=3, asks=True) as proxy:
        served = [proxy.client() for _ in range(3)]
        for it in served:
            it.ask(get_of("k"), MISS)
        wait_until("the mark that clients wait", lambda: proxy.tell().counts["full"] == 1)
        proxy.hear("ClientsWait")
        waiting = [proxy.client() for _ in range(2)]
        for it in waiting:
            it.send(get_of("k"))
        idle = proxy.processor_seconds()
        time.sleep(1)
        check_true("who keeps clients waiting works little", proxy.processor_seconds() - idle < 0.3)
        for it in waiting:
            expect_nothing(it)
        check("clients that came", 3, proxy.tell().counts["came"])
        served[0].quit()
        waiting[0].expect(MISS)
        expect_nothing(waiting[1])
        served[1].reset()
        waiting[1].expect(MISS)
        served[2].ask(get_of("k"), MISS)
        check("the mark that clients wait", 1, proxy.tell().counts["full"])
        served[2].close()
        wait_until("the end of the mark that clients wait", lambda: proxy.tell().counts["full"] == 0)
        check("clients that came and left", (5, 3), tuple(proxy.tell().counts[it] for it in ("came", "left")))
        check("what is heard of clients that wait", 3, proxy.heard.count("ClientsWait"))


@case
def the_backlog_is_long():
    """Three hundred clients wait in it, as far as the system allows."""
    with open("/proc/sys/net/core/somaxconn", encoding="ascii") as most:
        count = min(300, int(most.read()))
    with closing(StoreNode()) as node, Proxy([node.address], most_clients=1) as proxy:
        proxy.client().ask(get_of("k"), MISS)
        begun = time.monotonic()
        for _ in range(count):
            proxy.client()
        check_true(f"each comes to it at once: {time.monotonic() - begun:.1f} s", time.monotonic() - begun < 5)


@case(quick=False)
def want_of_memory_harms_no_other():
    """Twenty clients move values of a megabyte at once, and there are sixteen megabytes for them. Each is answered, told that memory
    is wanting, or closed; another one is served meanwhile, and all are once there is memory."""
    with closing(some_node()) as node, Proxy([node.address], asks=True) as proxy:
        small = proxy.client()
        small.ask(set_of("k", VALUE), STORED)
        proxy.limit_memory(16 * MIB)
        ends = []

        def move(number):
            with Client(proxy.address) as client:
                try:
                    for _ in range(5):
                        client.send(set_of(f"large{number}", LARGEST))
                        ends.append(client.line())
                        client.send(get_of(f"large{number}"))
                        line = client.line()
                        if line.startswith(b"VALUE"):
                            client.expect(LARGEST + b"\r\n" + MISS)
                        ends.append(line.split()[0])
                except (OSError, Wrong) as error:
                    ends.append(type(error).__name__)

        def ask():
            for _ in range(200):
                small.ask(get_of("k"), hits(("k", VALUE)))

        in_threads(ask, *[lambda number=number: move(number) for number in range(20)])
        proxy.limit_memory(None)
        check_true(f"memory was wanting, or enough: {set(ends)}", STORED in ends)
        proxy.ask(set_of("large", LARGEST), STORED)
        proxy.ask(get_of("large"), hits(("large", LARGEST)))


@contextlib.contextmanager
def without_memory(proxy, loops):
    """Its loops run, and get no memory meanwhile. They aren't asked before, which would leave them room for mail."""
    wait_until("its threads", lambda: proxy.status("Threads") > loops)
    time.sleep(1)
    memory.refuse(proxy)
    yield
    memory.grant(proxy)


@case(waits=True)
def a_client_that_is_refused_memory_is_closed_alone():
    """Memory is refused as a client is handed to its loop. The next ones are served, in its place too, and by its loop too."""
    numbers = set()

    def talk(link):
        while link.request():
            numbers.add(link.number)
            link.send(MISS)

    with closing(FakeNode(talk)) as node:
        with Proxy([node.address], loops=2, most_clients=2, before=memory.words()) as proxy:
            with without_memory(proxy, 2):
                proxy.client().expect_end()
            clients = [proxy.client() for _ in range(2)]
            for it in clients:
                it.ask(get_of("k"), MISS)
            check("the links over which the next two ask", {0, 1}, numbers)


@case(waits=True)
def a_proxy_that_is_refused_memory_ends():
    """Memory is refused as the last client comes, and its loops end all the same."""
    with closing(StoreNode(), StoreNode()) as (old, new):
        with Proxy([old.address], [new.address], loops=3, clients=1, before=memory.words()) as proxy:
            with without_memory(proxy, 3):
                proxy.client().expect_end()
            proxy.expect_served(0)
