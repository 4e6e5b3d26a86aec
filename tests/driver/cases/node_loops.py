"""A node on loops: its requests, its clients, its bounds, and the cache that its loops share."""
import contextlib
import pathlib
import shutil
import subprocess
import threading
import time

import memory
from client import DELETED, ERROR, MISS, NOT_FOUND, PATIENCE, STORED, Client, delete_of, get_of, hits, set_of
from clocks import MovedClock
from helping import LARGEST, MIB, VALUE, in_threads, is_proved, wait_until
from reading import wait_until_read
from running import case
from serving import HOME, Node
from wanted import Wrong, check, check_true

BAD_KEY = b"CLIENT_ERROR bad key\r\n"


@case
def a_node_serves_commands():
    with Node() as node:
        client = node.client()
        client.ask(get_of("k"), MISS)
        client.ask(set_of("k", VALUE, flags=7), STORED)
        client.ask(get_of("k"), hits(("k", VALUE, 7)))
        client.ask(get_of("k", "other", "k"), hits(("k", VALUE, 7), ("k", VALUE, 7)))
        client.ask(delete_of("k"), DELETED)
        client.ask(delete_of("k"), NOT_FOUND)
        client.send(set_of("n", VALUE, noreply=True), get_of("n"))
        client.expect(hits(("n", VALUE)))
        client.send(delete_of("n", noreply=True), get_of("n"))
        client.expect(MISS)
        client.ask(b"gets n\r\n", ERROR)
        client.quit()


@case
def what_a_node_refuses_is_answered_and_ends_the_client():
    with Node() as node:
        for text, answer in ((b"get " + b"k" * 251 + b"\r\n", BAD_KEY), (b"set k 0 0 1\r\nxyz\r\n", b"CLIENT_ERROR bad data end\r\n")):
            client = node.client()
            client.ask(set_of("k", VALUE) + get_of("k") + text + get_of("k"), STORED + hits(("k", VALUE)) + answer)
            client.expect_end()
        client = node.client()
        client.send(get_of("k"), b"quit\r\n", get_of("k"))
        client.expect(hits(("k", VALUE)))
        client.expect_end()


@case
def a_node_takes_requests_in_any_pieces():
    with Node() as node:
        text = set_of("k", "ab\r\ncd") + get_of("k", "a") + delete_of("k")
        wanted = STORED + hits(("k", "ab\r\ncd")) + DELETED
        for at in range(1, len(text)):
            client = node.client()
            client.send(text[:at])
            wait_until_read(client.socket)
            client.send(text[at:])
            client.expect(wanted)
            client.close()
        client = node.client()
        for byte in text:
            client.send(bytes([byte]))
            wait_until_read(client.socket)
        client.expect(wanted)


@case
def a_pipeline_leaves_turns_to_others_at_a_node():
    with Node() as node:
        node.ask(set_of("k", VALUE), STORED)
        pipelining, other = node.client(), node.client()
        ended = threading.Event()
        waits = []

        def send():
            for _ in range(20):
                pipelining.send(*[get_of("k")] * 10000)

        def take():
            for _ in range(20):
                pipelining.expect(hits(("k", VALUE)) * 10000)
            ended.set()

        def ask():
            while not ended.is_set() and len(waits) < 5000:
                begun = time.monotonic()
                other.ask(get_of("k"), hits(("k", VALUE)))
                waits.append(time.monotonic() - begun)

        in_threads(send, take, ask)
        check_true(f"many answers come beside a pipeline: {len(waits)}", len(waits) >= 6)
        check_true(f"an answer beside a pipeline comes soon: {max(waits):.3f} s", max(waits) < 2)


@case
def a_node_answers_at_once():
    """It waits neither for another event nor for the time."""
    with Node(loops=2) as node:
        client = node.client()
        spans = []
        for _ in range(51):
            begun = time.monotonic()
            client.ask(get_of("k"), MISS)
            spans.append(time.monotonic() - begun)
        middle = sorted(spans)[25]
        check_true(f"an answer: {middle:.4f} s", middle < 0.015)


@case
def a_client_of_a_node_that_never_reads_hinders_nobody():
    with Node() as node:
        node.ask(set_of("large", LARGEST[:100000]), STORED)
        node.ask(set_of("k", VALUE), STORED)
        kept = node.status("VmRSS")
        greedy = node.client(little_room=True)
        greedy.socket.setblocking(False)
        with contextlib.suppress(BlockingIOError):
            for _ in range(20000):
                greedy.socket.send(get_of("large") * 10)
        waits = []
        other = node.client()
        for _ in range(200):
            begun = time.monotonic()
            other.ask(get_of("k"), hits(("k", VALUE)))
            waits.append(time.monotonic() - begun)
        check_true(f"answers beside it come soon: {max(waits):.3f} s", max(waits) < (1 if is_proved() else 20))
        grown = node.status("VmRSS") - kept
        check_true(f"what isn't read takes little memory: {grown} kB", grown < 8 * 1024 or not is_proved())
        idle = node.processor_seconds()
        time.sleep(1)
        check_true("who waits for a reader works little", node.processor_seconds() - idle < 0.3)
        greedy.close()
        other.ask(get_of("k"), hits(("k", VALUE)))


def who_reads_late_gets_all(most_unread, size, count):
    """A client that reads late has all answers, however few bytes of them may be unread."""
    value = b"w" * size
    with Node(most_unread=most_unread) as node:
        node.ask(set_of("k", value), STORED)
        client = node.client(little_room=True)

        def send():
            client.send(*[get_of("k"), delete_of("a")] * count)
            client.stop_sending()

        def take():
            time.sleep(0.5)
            client.expect((hits(("k", value)) + NOT_FOUND) * count)
            client.expect_end()

        in_threads(send, take)


@case
def a_slow_reader_of_a_node_gets_all():
    who_reads_late_gets_all(5000, 3000, 1000)


@case
def each_answer_of_a_node_may_have_to_be_read_first():
    who_reads_late_gets_all(0, 100, 1000)


@case
def half_closed_clients_of_a_node():
    with Node() as node:
        node.ask(set_of("k", VALUE), STORED)
        for _ in range(50):
            client = node.client()
            client.send(*[get_of("k")] * 100, b"get k")
            client.stop_sending()
            client.expect(hits(("k", VALUE)) * 100)
            client.expect_end()
            client.close()
        client = node.client()
        client.stop_sending()
        client.expect_end()


@case
def half_closed_by_netcat_at_a_node():
    if not shutil.which("nc"):
        return
    with Node() as node:
        host, port = node.address.split(":")
        text = set_of("k", VALUE) + get_of("k") + delete_of("k") + get_of("k")
        ran = subprocess.run(["nc", "-N", host, port], input=text, capture_output=True, timeout=PATIENCE)
        check("what nc prints", STORED + hits(("k", VALUE)) + DELETED + MISS, ran.stdout)


@case
def answers_of_a_node_are_in_order_and_of_their_clients():
    with Node(loops=2) as node:
        keys = [f"k{n}" for n in range(300)]

        def work(name):
            client = node.client()
            client.send(*[set_of(f"{key}.{name}", f"{key} of {name}") for key in keys])
            client.expect(STORED * len(keys))
            for key in keys:
                client.ask(get_of(f"{key}.{name}"), hits((f"{key}.{name}", f"{key} of {name}")))
            client.send(get_of(*[f"{key}.{name}" for key in keys]))
            client.expect(hits(*[(f"{key}.{name}", f"{key} of {name}") for key in keys]))

        in_threads(*[lambda name=name: work(name) for name in range(8)])


@case
def ten_thousand_clients_come_and_go_at_a_node():
    with Node(loops=2, files=1024, asks=True) as node:
        before = node.open_files()
        node.ask(set_of("k", VALUE), STORED)

        def come_and_go():
            for _ in range(25):
                clients = [Client(node.address) for _ in range(100)]
                for it in clients:
                    it.send(get_of("k"))
                for number, it in enumerate(clients):
                    if number % 4:
                        it.expect(hits(("k", VALUE)))
                    if number % 2:
                        it.close()
                    else:
                        it.reset()

        in_threads(*[come_and_go] * 4)
        wait_until("the end of ten thousand clients", lambda: node.tell().counts["left"] == 10001)
        check("clients that came", 10001, node.tell().counts["came"])
        wait_until("files that are open once all have gone", lambda: node.open_files() == before)
        node.ask(get_of("k"), hits(("k", VALUE)))


@case
def many_clients_of_a_node():
    with Node(loops=2, files=1024) as node:
        node.ask(set_of("k", VALUE), STORED)
        clients = [node.client() for _ in range(400)]
        for _ in range(3):
            for it in clients:
                it.send(get_of("k"))
            for it in clients:
                it.expect(hits(("k", VALUE)))
        check("threads", 3, node.status("Threads"))
        check("files", 2 * 2 + 400 + 4, node.open_files())


@case(quick=False)
def idle_clients_of_a_node_keep_no_buffer():
    with Node(files=1024) as node:
        node.ask(set_of("large", LARGEST[:100000]), STORED)
        clients = [node.client() for _ in range(50)]
        kept = node.status("VmRSS")
        clients += [node.client() for _ in range(800)]
        for it in clients:
            it.ask(get_of("large"), hits(("large", LARGEST[:100000])))
        grown = node.status("VmRSS") - kept
        check_true(f"850 clients that were answered 100 kB: {grown} kB", grown < 4000)


@case(waits=True)
def silent_clients_of_a_node_are_closed():
    with Node(client_seconds=1, clients=2) as node:
        silent, lively = node.client(), node.client()
        begun = time.monotonic()
        while time.monotonic() < begun + 3:
            lively.ask(get_of("k"), MISS)
            time.sleep(0.1)
        silent.expect_end()
        lively.ask(get_of("k"), MISS)
        lively.quit()
        node.expect_served(1)


@case(waits=True)
def who_sends_or_takes_at_a_node_is_not_silent():
    """A value that is sent, and answers that are read, in pieces for longer than a client may be silent."""
    with Node(client_seconds=1, most_unread=5000) as node:
        node.ask(set_of("k", b"w" * 3000), STORED)

        def send():
            client, text = node.client(), set_of("l", VALUE * 2)
            for at in range(0, len(text), 20):
                client.send(text[at : at + 20])
                time.sleep(0.3)
            client.expect(STORED)

        def take():
            client, text = node.client(little_room=True), hits(("k", b"w" * 3000)) * 400
            client.send(*[get_of("k")] * 400)
            for at in range(0, len(text), 30000):
                client.expect(text[at : at + 30000])
                time.sleep(0.1)

        in_threads(send, take)


@case(waits=True)
def who_takes_nothing_of_a_node_is_silent():
    """A client that reads none of its answers is ended, though some of its requests aren't served yet."""
    with Node(client_seconds=1, asks=True) as node:
        node.ask(set_of("large", LARGEST[:100000]), STORED)
        node.client(little_room=True).send(get_of("large") * 200)
        wait_until("the end of a client that takes nothing", lambda: node.tell().counts["left"] == 2)


@case
def who_breaks_off_before_it_has_read_of_a_node_is_gone():
    with Node(asks=True) as node:
        node.ask(set_of("large", LARGEST[:100000]), STORED)
        client = node.client(little_room=True)
        client.send(get_of("large") * 100)
        wait_until("answers that aren't read", lambda: node.tell().done["hits"] > 5)
        client.reset()
        wait_until("the end of a client that broke off", lambda: node.tell().counts["left"] == 2)


@case(waits=True)
def few_descriptors_of_a_node():
    with Node(asks=True) as node:
        node.ask(set_of("k", VALUE), STORED)
        crowd = [node.client() for _ in range(100)]
        time.sleep(0.3)
        crowd[0].ask(get_of("k"), hits(("k", VALUE)))
        idle = node.processor_seconds()
        time.sleep(1)
        check_true("who can't accept works little", node.processor_seconds() - idle < 0.3)
        check("files that are open", 64, node.open_files())
        node.hear("NoDescriptors")
        begun = time.monotonic()
        for it in crowd[:60]:
            it.close()
        crowd[99].ask(get_of("k"), hits(("k", VALUE)))
        check_true(f"who waits comes soon: {time.monotonic() - begun:.1f} s", time.monotonic() - begun < 5)


@case
def a_node_ends_when_it_was_told_to():
    with Node(loops=2, clients=5) as node:
        clients = [node.client() for _ in range(5)]
        clients[0].quit()
        clients[1].stop_sending()
        clients[1].expect_end()
        clients[2].ask(b"get " + b"k" * 251 + b"\r\n", BAD_KEY)
        clients[2].expect_end()
        clients[3].ask(get_of("k"), MISS)
        clients[3].reset()
        clients[4].ask(get_of("k"), MISS)
        clients[4].close()
        node.expect_served(4)


@case(waits=True)
def a_node_that_was_stopped_goes_on():
    """While it is stopped, a client waits for longer than it may be silent. What came meanwhile counts before the time does."""
    with Node(client_seconds=2) as node:
        client = node.client()
        client.ask(get_of("k"), MISS)
        node.stop()
        client.send(get_of("k"))
        time.sleep(3)
        node.go_on()
        client.expect(MISS)


@case
def loops_of_a_node_tell_of_themselves():
    with Node(loops=3, capacity=4, asks=True) as node:
        clients = [node.client() for _ in range(6)]
        for number, it in enumerate(clients):
            it.ask(set_of(f"k{number}", VALUE), STORED)
        clients[0].ask(get_of("k0", "k5", "k4"), hits(("k5", VALUE), ("k4", VALUE)))
        clients[1].ask(delete_of("k5") + delete_of("k5"), DELETED + NOT_FOUND)
        clients[2].ask(set_of("k4", VALUE) + set_of("k6", VALUE, exptime=-1), STORED * 2)
        told = node.tell()
        check("loops and clients", {"loops": 3, "came": 6, "left": 0, "full": 0}, told.counts)
        wanted = {"hits": 2, "misses": 1, "stored": 8, "deleted": 1, "not_found": 1, "failed": 0}
        check("what they did", wanted, told.done)
        check("what the cache holds", {"items": 3, "capacity": 4, "evicted": 2}, told.cache)
        clients[0].quit()
        clients[1].reset()
        wait_until("the end of two clients", lambda: node.tell().counts["left"] == 2)


@case
def loops_share_one_cache():
    """What a client of one loop stores or deletes is there for clients of all others at once."""
    with Node(loops=4) as node:
        clients = [node.client() for _ in range(8)]
        for number, it in enumerate(clients):
            it.ask(set_of("k", f"v{number}"), STORED)
            for other in clients:
                other.ask(get_of("k"), hits(("k", f"v{number}")))
        clients[0].ask(delete_of("k"), DELETED)
        for it in clients:
            it.ask(get_of("k"), MISS)


@case
def a_get_of_many_keys_is_one_step():
    """A client stores a rising number under one key and then under another, again and again. A get that has all its keys at one moment
    never finds more under the second key than under the first."""
    between = [f"x{n}" for n in range(200)]
    ended = threading.Event()
    with Node(loops=3) as node:
        node.ask(set_of("a", "0") + set_of("b", "0"), STORED * 2)

        def store():
            client = node.client()
            for turn in range(0, 60000, 200):
                numbers = range(turn, turn + 200)
                client.ask(b"".join(set_of("a", str(n), noreply=True) + set_of("b", str(n), noreply=True) for n in numbers) + get_of("y"), MISS)
            ended.set()

        def look():
            client = node.client()
            while not ended.is_set():
                client.send(get_of("a", *between, "b"))
                found = []
                while (line := client.line()) != MISS:
                    check("what is found", b"VALUE", line.split()[0])
                    found.append(int(client.line()))
                check_true(f"what is found at one moment: {found}", len(found) == 2 and found[1] <= found[0])

        in_threads(store, look, look)


@case
def items_expire_by_the_clock_of_their_request():
    """A request has its own reading of the clock, and not that of one before."""
    clock = MovedClock(pathlib.Path(HOME, "clock-of-a-node"))
    with Node(before=clock.words()) as node:
        client = node.client()
        client.ask(set_of("k", VALUE, exptime=100) + set_of("l", VALUE, exptime=1000), STORED * 2)
        client.ask(get_of("k", "l"), hits(("k", VALUE), ("l", VALUE)))
        clock.move(500)
        client.ask(get_of("k", "l"), hits(("l", VALUE)))
        clock.move(5000)
        client.ask(get_of("l"), MISS)


@case(quick=False)
def want_of_memory_harms_no_other_of_a_node():
    """Twenty clients move values of a megabyte at once, and there are sixteen megabytes for them. Each is answered, told that memory
    is wanting, or closed; another one is served meanwhile, and all are once there is memory."""
    with Node() as node:
        small = node.client()
        small.ask(set_of("k", VALUE), STORED)
        node.limit_memory(16 * MIB)
        ends = []

        def move(number):
            with Client(node.address) as client:
                try:
                    for _ in range(5):
                        client.send(set_of(f"large{number}", LARGEST))
                        ends.append(client.line())
                        client.send(get_of(f"large{number}"))
                        line = client.line()
                        if line.startswith(b"VALUE"):
                            client.expect(LARGEST + b"\r\n" + MISS)
                        ends.append(line.split()[0])
                except (OSError, Wrong) as error:
                    ends.append(type(error).__name__)

        def ask():
            for _ in range(200):
                small.ask(get_of("k"), hits(("k", VALUE)))

        in_threads(ask, *[lambda number=number: move(number) for number in range(20)])
        node.limit_memory(None)
        check_true(f"memory was wanting, or enough: {set(ends)}", STORED in ends)
        node.ask(set_of("large", LARGEST), STORED)
        node.ask(get_of("large"), hits(("large", LARGEST)))


@case(waits=True)
def who_waits_for_memory_at_a_node_goes_on():
    """Memory is refused while a client asks. It is answered once there is memory again, or was closed; others are served then."""
    with Node(before=memory.words(), asks=True) as node:
        client = node.client()
        client.ask(set_of("k", VALUE), STORED)
        client.ask(get_of("k"), hits(("k", VALUE)))
        time.sleep(0.5)
        memory.refuse(node)
        client.send(get_of("k"))
        time.sleep(1)
        memory.grant(node)
        client.expect(hits(("k", VALUE)))
        node.ask(get_of("k"), hits(("k", VALUE)))
