"""Proxies on loops: how many threads and connections they have, who waits, and what becomes of a link that breaks."""
import os
import threading
import time

from asking import ask_at_once
from cases.silence import check_took
from client import DELETED, LOST, MISS, NOT_FOUND, PATIENCE, STORED, delete_of, get_of, hits, set_of
from fake import FakeNode, FullQueue, SlowNode, answering
from fleet import Fleet
from placing import key_at
from running import case
from wanted import Wrong, check, check_true

MIB = 1 << 20


def wait_for(what, wanted, number):
    """Waits until a number is this one."""
    until = time.monotonic() + PATIENCE
    while number() != wanted:
        if time.monotonic() > until:
            raise Wrong(what, wanted, number())
        time.sleep(0.01)


def missing(link):
    """Finds nothing, whatever a link asks for."""
    while link.request():
        link.send(MISS)


def in_threads(*jobs):
    """Runs functions side by side. Fails where one did."""
    failures = []

    def guarded(job):
        try:
            job()
        except Exception as error:  # of a thread of its own, raised again below
            failures.append(error)

    threads = [threading.Thread(target=guarded, args=(job,), daemon=True) for job in jobs]
    for it in threads:
        it.start()
    for it in threads:
        it.join()
    if failures:
        raise failures[0]


@case
def a_proxy_has_a_connection_to_each_node_for_each_loop():
    """Of both pools, from the start, whatever its clients ask for; and a thread for each loop, and three more at most."""
    with Fleet() as fleet:
        nodes = [fleet.keep(FakeNode(missing)) for _ in range(3)]
        config = fleet.config([it.address for it in nodes[:2]], [nodes[2].address])
        for loops in (1, 3):
            before = [len(it.links) for it in nodes]
            proxy = fleet.proxy_on_loops(config, loops=loops)
            for it, links in zip(nodes, before):
                wait_for("connections to a node", links + loops, lambda it=it: len(it.links))
            for client in proxy.clients(30):
                client.ask(get_of(*(f"k{n}" for n in range(10))), MISS)
            check("connections to each node", [it + loops for it in before], [len(it.links) for it in nodes])
            threads = proxy.thread_count()
            check_true(f"{threads} threads are {loops} and three at most", loops < threads <= loops + 3)


@case
def a_proxy_has_a_loop_for_each_processor():
    """Where its words don't say how many: of one that may use one processor, and of one that may use two."""
    with Fleet() as fleet:
        for loops in range(1, min(2, len(os.sched_getaffinity(0))) + 1):
            processors = ",".join(str(it) for it in sorted(os.sched_getaffinity(0))[:loops])
            node = fleet.keep(FakeNode(missing))
            config = str(fleet.config([node.address]))
            words = ("proxy", "--config", config, "--forever", "--quiet")
            proxy = fleet.serve(*words, before=("taskset", "-c", processors), left_open=False)
            wait_for("connections to the node", loops, lambda node=node: len(node.links))
            proxy.ask(get_of("k"), MISS)
            check("connections to the node", loops, len(node.links))


@case
def a_request_beyond_the_room_waits():
    """It reaches its node once an answer has left, and no client hears of it."""
    with Fleet() as fleet:
        slow = fleet.keep(SlowNode())
        one, two, three, four = fleet.proxy_on_loops(fleet.config([slow.address]), "--room", "2", loops=1).clients(4)
        one.send(get_of("a"))
        two.send(get_of("b"))
        slow.wait_for(2)
        three.send(get_of("c"))
        four.send(get_of("d") + b"quit\r\n")
        check("what comes for want of room", (b"", b"<nothing more>"), three.piece(1, 0.5))
        slow.wait_for(2)
        slow.answer_all({"a": "1", "b": "2"})
        one.expect(hits(("a", "1")))
        two.expect(hits(("b", "2")))
        slow.wait_for(2)
        slow.answer_all({"c": "3"})
        three.expect(hits(("c", "3")))
        four.expect(MISS)
        four.expect_end()


@case
def room_for_one_request_serves_everybody():
    """Twenty clients send fifty gets each at once, to a proxy with room for one: each has all its answers, in order."""
    with Fleet() as fleet:
        proxy = fleet.proxy_on_loops(fleet.config(fleet.nodes(2)), "--room", "1", loops=1)
        for number in range(20):
            proxy.ask(set_of(f"k{number}", f"v{number}"), STORED)

        def work(number):
            client = proxy.client()
            client.send(get_of(f"k{number}") * 25 + get_of(f"k{number}", "absent") * 25)
            client.expect(hits((f"k{number}", f"v{number}")) * 50)

        in_threads(*(lambda number=number: work(number) for number in range(20)))


@case
def clients_beyond_the_most_wait_until_others_have_ended():
    """Of a proxy of two loops that serves three at once, the fourth is connected, and answered once one of them has ended."""
    with Fleet() as fleet:
        proxy = fleet.proxy_on_loops(fleet.config(fleet.nodes(1)), "--max-clients", "3")
        served = proxy.clients(3)
        for client in served:
            client.ask(get_of("k"), MISS)
        waiting = proxy.client()
        waiting.send(get_of("k"))
        check("what comes while as many are served as may be", (b"", b"<nothing more>"), waiting.piece(1, 0.5))
        for client in served:
            client.ask(set_of("k", "v") + get_of("k"), STORED + hits(("k", "v")))
        served[1].quit()
        waiting.expect(hits(("k", "v")))
        served[0].ask(get_of("k"), hits(("k", "v")))


@case
def a_pipeline_of_ten_thousand_requests_leaves_turns_to_others():
    """A client that asks one at a time is answered all the while."""
    with Fleet() as fleet:
        proxy = fleet.proxy_on_loops(fleet.config(fleet.nodes(1)), loops=1)
        proxy.ask(set_of("k", "v" * 100), STORED)
        pipelining, other = proxy.clients(2)
        ended = threading.Event()
        answers = []

        def send():
            pipelining.send(get_of("k") * 10000)

        def take():
            try:
                pipelining.expect(hits(("k", "v" * 100)) * 10000)
            finally:
                ended.set()

        def ask():
            while not ended.is_set():
                begun = time.monotonic()
                other.ask(get_of("k"), hits(("k", "v" * 100)))
                answers.append(time.monotonic() - begun)

        in_threads(send, take, ask)
        check_true(f"{len(answers)} answers beside the pipeline are twenty at least", len(answers) >= 20)
        check_true(f"that each of them came soon, the last one after {max(answers):.2f} s", max(answers) < 2)


@case
def a_link_that_broke_is_made_again():
    """Its node's keys are lost meanwhile, at once, and all others are served. Once the node is back all are."""
    with Fleet() as fleet:
        away, other = fleet.nodes(2)
        proxy = fleet.proxy_on_loops(fleet.config([away, other]))
        key, staying = key_at(0, 2), key_at(1, 2)
        clients = proxy.clients(2)
        for client in clients:
            client.ask(set_of(key, "v") + set_of(staying, "s"), STORED * 2)
        away.kill()
        for client in (*clients, proxy.client()):
            for _ in range(3):
                client.ask(get_of(key), LOST)
                client.ask(get_of(staying), hits((staying, "s")))
            client.ask(get_of(staying, key), LOST)
            client.ask(set_of(key, "w"), LOST)
            client.ask(set_of(key, "w", noreply=True) + get_of(staying), hits((staying, "s")))
        away.begin_again()
        for client in clients:
            client.ask_until(get_of(key), MISS, LOST)
        clients[0].ask(set_of(key, "x"), STORED)
        for client in (*clients, proxy.client()):
            client.ask(get_of(key, staying), hits((key, "x"), (staying, "s")))


@case
def a_node_may_begin_after_its_proxy():
    """Until then its keys are lost at once, and all others are served."""
    with Fleet() as fleet:
        there, late = fleet.nodes(2)
        late.kill()
        client = fleet.proxy_on_loops(fleet.config([there, late])).client()
        key, far = key_at(0, 2), key_at(1, 2)
        for number in range(5):
            client.ask(set_of(key, f"{number}") + get_of(far, key), STORED + LOST)
            client.ask(get_of(key), hits((key, f"{number}")))
            time.sleep(0.1)
        late.begin_again()
        client.ask_until(get_of(far), MISS, LOST)
        client.ask(set_of(far, "f") + get_of(far, key), STORED + hits((far, "f"), (key, "4")))


@case
def what_a_node_refuses_is_passed_on_and_ends_a_link_that_it_does_not_understand():
    """An error of the server has its own text, and the link goes on. A node that answers ERROR or CLIENT_ERROR may do so twice for
    one request, so what it sends behind that can't be trusted: the client is told, and the link is made again."""
    passed = (
        (b"SERVER_ERROR out of memory\r\n", b"SERVER_ERROR out of memory\r\n"),
        (b"SERVER_ERROR words of  its own \r\n", b"SERVER_ERROR words of  its own \r\n"),
        (b"SERVER_ERROR\r\n", b"SERVER_ERROR \r\n"),
    )
    breaking = ((b"CLIENT_ERROR bad key\r\n", b"SERVER_ERROR bad key\r\n"), (b"ERROR\r\n", b"SERVER_ERROR node refused\r\n"))
    first = hits(("k", "v"))
    talks = ([first, *(told for told, _ in (*passed, breaking[0]))], [first, breaking[1][0]], [first] * 2)
    with Fleet() as fleet:
        node = fleet.keep(FakeNode(lambda link: answering(talks[link.number])(link)))
        client = fleet.proxy_on_loops(fleet.config([node.address]), loops=1).client()
        client.ask_until(get_of("k"), first, LOST)
        for _, wanted in (*passed, breaking[0]):
            client.ask(get_of("k"), wanted)
        client.ask_until(get_of("k"), first, LOST)
        client.ask(get_of("k"), breaking[1][1])
        client.ask_until(get_of("k"), first, LOST)
        client.ask(get_of("k"), first)
        check("connections to the node", 3, len(node.links))


@case
def a_reply_to_something_else_ends_its_link():
    """The leg is lost, and so are those behind it, whose replies can't be told apart any more."""
    strange = (STORED, DELETED, hits(("l", "v")), hits(("k", "v"), ("k", "v")), b"VALUE k\r\n", b"huh\r\n")
    first = hits(("k", "v"))
    with Fleet() as fleet:
        node = fleet.keep(FakeNode(lambda link: answering([first, *strange[link.number :][:1], first, first])(link)))
        client = fleet.proxy_on_loops(fleet.config([node.address]), loops=1).client()
        for _ in strange:
            client.ask_until(get_of("k"), first, LOST)
            client.ask(get_of("k") * 3, LOST * 3)
        client.ask_until(get_of("k"), first, LOST)
        check("connections to the node", len(strange) + 1, len(node.links))


@case
def the_keys_that_a_node_keeps_are_asked_for_at_once():
    """A node gets the keys of a get that it keeps in one request, in their order. What it finds is dealt out: a key that stands twice
    is told twice, and one that isn't there is left out. An error is the answer to all of them."""
    a, b, c = ("a", "1"), ("b", "2"), ("c", "3")
    told = (
        (("a", "b", "c"), hits(a, b, c)),
        (("c", "m", "a", "n"), hits(c, a)),
        (("m", "a"), hits(a)),
        (("b", "a", "b", "b"), hits(b, a, b, b)),
        (("m", "n"), MISS),
        (("a", "b"), b"SERVER_ERROR out of memory\r\n"),
    )
    with Fleet() as fleet:
        asked = []

        def answer(link):
            for _, reply in told:
                asked.append(link.request())
                link.send(reply)
            link.request()

        node = fleet.keep(FakeNode(answer))
        client = fleet.proxy_on_loops(fleet.config([node.address]), loops=1).client()
        for keys, reply in told:
            client.ask(get_of(*keys), reply)
        check("what the node is asked for", [get_of(*keys) for keys, _ in told], asked)
        check("connections to the node", 1, len(node.links))


@case
def keys_of_several_nodes_are_answered_in_the_order_of_the_client():
    """Each node is asked for its own keys alone, and what they find stands where it was asked for."""
    keys = [key_at(place, 2, stem=f"stem{number}.") for number, place in enumerate((0, 1, 1, 0, 1, 0, 0, 0, 1))]
    there = keys[::2]
    with Fleet() as fleet:
        client = fleet.proxy_on_loops(fleet.config(fleet.nodes(2)), loops=1).client()
        for key in there:
            client.ask(set_of(key, f"of {key}"), STORED)
        client.ask(get_of(*keys), hits(*((key, f"of {key}") for key in there)))
        client.ask(get_of(*reversed(keys)), hits(*((key, f"of {key}") for key in reversed(there))))


@case
def a_reply_with_items_that_nobody_asked_for_ends_its_link():
    """An item of another key, one out of turn or one more than was asked for: none of the keys has an answer."""
    a, b, c = ("a", "1"), ("b", "2"), ("c", "3")
    strange = (hits(c), hits(b, a), hits(a, a, b), hits(a, b, b), hits(a, b, c), STORED, NOT_FOUND)
    with Fleet() as fleet:
        node = fleet.keep(FakeNode(lambda link: answering([MISS, *strange[link.number :][:1], MISS])(link)))
        client = fleet.proxy_on_loops(fleet.config([node.address]), loops=1).client()
        for _ in strange:
            client.ask_until(get_of("a", "b"), MISS, LOST)
            client.ask(get_of("a", "b"), LOST)
        client.ask_until(get_of("a", "b"), MISS, LOST)
        check("connections to the node", len(strange) + 1, len(node.links))


@case(waits=True)
def a_silent_node_holds_up_nobody_else():
    """Its legs are lost after their time, all of a link at once. Who asks for other keys is answered meanwhile."""
    key, other_key = key_at(0, 2), key_at(1, 2)

    def talk(link):
        while link.request():
            if link.number:
                link.send(hits((key, "in time")))

    with Fleet() as fleet:
        silent, fast = fleet.keep(FakeNode(talk)), fleet.node()
        proxy = fleet.proxy_on_loops(fleet.config([silent.address, fast]), "--leg-timeout", "700", loops=1)
        client, other = proxy.clients(2)
        wait_for("connections to the silent node", 1, lambda: len(silent.links))
        client.ask(get_of(other_key), MISS)
        begun = time.monotonic()
        client.send(get_of(key) + set_of(key, "v") + delete_of(key))
        for number in range(10):
            other.ask(set_of(other_key, f"{number}") + get_of(other_key), STORED + hits((other_key, f"{number}")))
        client.expect(LOST * 3)
        check_took("the legs were lost", begun, 0.65, 5)
        client.ask_until(get_of(key), hits((key, "in time")), LOST)
        client.ask(get_of(other_key, key), hits((other_key, "9"), (key, "in time")))
        check("connections to the node", 2, len(silent.links))


@case(waits=True)
def a_node_that_accepts_nobody_loses_its_legs_at_once():
    """Nobody waits for a connection that is being made."""
    with Fleet() as fleet:
        full, there = fleet.keep(FullQueue()), fleet.node()
        proxy = fleet.proxy_on_loops(fleet.config([full.address, there]), "--leg-timeout", "700")
        client = proxy.client()
        for _ in range(4):
            begun = time.monotonic()
            client.ask(get_of(key_at(0, 2)), LOST)
            check_took("the leg was lost", begun, 0, 0.5)
            client.ask(get_of(key_at(1, 2)), MISS)
            time.sleep(0.4)


@case(waits=True, quick=False)
def clients_need_no_thread():
    """A hundred at once, of a proxy that may take 60 MiB more, are all served: for as many the threads' stacks would be 800 MiB."""
    with Fleet() as fleet:
        proxy = fleet.proxy_on_loops(fleet.config([fleet.node("--capacity", "4096")]), clients=102)
        first = proxy.client()
        first.ask(set_of("l", "kept"), STORED)
        proxy.limit_memory(60 * MIB)
        askers = ask_at_once(proxy, 100, rounds=20)
        check("clients that were closed, answers that failed", (0, 0), (sum(it.closed for it in askers), sum(it.failures for it in askers)))
        first.ask(get_of("l"), hits(("l", "kept")))
        first.quit()
        proxy.client().quit()
        proxy.expect_served(102)


@case(waits=True)
def clients_for_whom_there_is_no_open_file_wait():
    """Of a proxy that may have four more open files. Who was served before is served throughout, and who can't be accepted is
    served once a file is free: none of them ends with a fault."""
    with Fleet() as fleet:
        proxy = fleet.proxy_on_loops(fleet.config(fleet.nodes(1)), clients=52)
        first = proxy.client()
        first.ask(set_of("l", "kept"), STORED)
        proxy.limit_files(proxy.open_files() + 4)
        askers = ask_at_once(proxy, 50, rounds=2)
        check("clients that were closed, answers that failed", (0, 0), (sum(it.closed for it in askers), sum(it.failures for it in askers)))
        first.ask(get_of("l"), hits(("l", "kept")))
        first.quit()
        proxy.client().quit()
        proxy.expect_served(52)


@case
def a_delete_that_one_pool_cannot_be_told_is_lost_at_once():
    """The other pool is told it all the same, and the client isn't told that it was done."""
    with Fleet() as fleet:
        old, new = fleet.nodes(2)
        own = new.client()
        own.ask(set_of("k", "v"), STORED)
        client = fleet.proxy_on_loops(fleet.config([old], [new], start=int(time.time()) - 1800)).client()
        client.ask(delete_of("absent"), NOT_FOUND)
        old.kill()
        begun = time.monotonic()
        client.ask(delete_of("k"), LOST)
        check_took("the delete was lost", begun, 0, 1)
        wait_for("what the new pool holds then", None, lambda: own.value_of("k"))
