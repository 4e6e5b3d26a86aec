"""Values of up to 1,048,576 bytes: whether they go unharmed, and how much memory is held for them."""
import os
import random
import time

from client import MISS, PATIENCE, STORED, get_of, hits, set_of
from fleet import Fleet
from reading import wait_until_read
from running import case
from wanted import Wrong, check_true

LARGEST = 1_048_576
REFUSED = b"CLIENT_ERROR data too long\r\n"
BYTES = random.Random(1).randbytes(LARGEST + 4096)
LITTLE = 32_000_000  # half a megabyte for each of the clients
CLIENTS = 64
FEW = 10_000  # more than a line: up to so much room is given back whatever was made
KEPT = 10  # blocks, at a node of little room

UNPROVED = "MIGCTL_UNPROVED" in os.environ
BLOCKS, ROUNDS = (100, 1) if UNPROVED else (1000, 2)  # an unproved program takes some hundred times as long for a byte
ALLOWED = 100_000_000 if UNPROVED else 64_000_000  # bytes of memory above what is kept


def block(number, length=LARGEST):
    """A block of so many bytes, another one for each number up to 4,096."""
    return BYTES[number : number + length]


def both(fleet):
    """A node, and a proxy before another node."""
    return fleet.node(), fleet.proxy(fleet.config([fleet.node()]))


def wait_for_less(what, number, most):
    """Waits until a number is this one at most."""
    until = time.monotonic() + PATIENCE
    while number() > most:
        if time.monotonic() > until:
            raise Wrong(what, f"{most:,} at most", f"{number():,}")
        time.sleep(0.02)


def expect_resident(service, kept):
    """A service comes to have little more resident memory than what is kept."""
    wait_for_less(f"the resident memory of {service.name()}", lambda: service.memory("VmRSS"), kept + ALLOWED)


def held_anyway(services, clients):
    """The resident memory of each service that an unproved program holds for connections over which short blocks went. A
    proved one has no such excuse."""
    if not UNPROVED:
        return [0] * len(services)
    for client in clients:
        client.ask(set_of("k", block(0, 65536)), STORED)
        client.ask(get_of("k"), hits(("k", block(0, 65536))))
    return [it.memory("VmRSS") for it in services]


@case(quick=False)
def values_of_up_to_1048576_bytes_come_back_as_they_were():
    """Through a node and through a proxy, one by one, twice in one answer, and several in one write."""
    with Fleet() as fleet:
        for service in both(fleet):
            client = service.client()
            for number, length in enumerate((8193, 65536, 1048575, 1048576)):
                client.ask(set_of("k", block(number, length), flags=number), STORED)
                client.ask(get_of("k", "k"), hits(*[("k", block(number, length), number)] * 2))
            one, other = block(5), block(6)
            client.send(set_of("k", one), set_of("l", other), get_of("l"))
            client.expect(STORED * 2 + hits(("l", other)))
            client.ask(get_of("l", "absent", "k"), hits(("l", other), ("k", one)))


@case
def a_value_of_1048577_bytes_is_refused():
    """The answer to its line is that of a refusal, and the connection ends, so that the bytes behind it reach nobody: whoever
    sends them all may find the connection broken before the answer. Nothing is stored, and others are served."""
    with Fleet() as fleet:
        for service in both(fleet):
            other, client = service.clients(2)
            other.ask(set_of("k", "before"), STORED)
            client.ask(b"set k 0 0 1048577\r\n", REFUSED)
            client.expect_end()
            with service.client() as sending:
                try:
                    sending.send(set_of("k", BYTES[: LARGEST + 1]))
                except OSError:
                    pass
                came, end = sending.all_that_comes()
                check_true(f"that the answer is refused or cut, and not {came!r}", REFUSED.startswith(came))
                check_true(f"that the connection ends, and not {end!r}", end in (b"<end>", b"<reset>"))
            other.ask(get_of("k"), hits(("k", "before")))


@case(quick=False)
def a_node_holds_no_more_memory_than_its_items():
    """After 1,000 blocks of 1,048,576 bytes, by several clients, of which it keeps 10."""
    with Fleet() as fleet:
        node = fleet.node("--capacity", str(KEPT))
        clients = node.clients(4)
        for number in range(BLOCKS):
            clients[number % 4].ask(set_of(f"k{number}", block(number)), STORED)
        expect_resident(node, KEPT * LARGEST)
        for number in range(BLOCKS - KEPT, BLOCKS):
            clients[number % 3].ask(get_of(f"k{number}"), hits((f"k{number}", block(number))))
        clients[3].ask(get_of(f"k{BLOCKS - KEPT - 1}"), MISS)
        expect_resident(node, KEPT * LARGEST)
        for client in clients:
            client.quit()
        expect_resident(node, KEPT * LARGEST)


@case(quick=False)
def a_proxy_holds_nothing_of_the_blocks_that_went_through_it():
    """Of 64 clients each sends a block but for its end, then all blocks come to their end and go to the node, and each client
    gets one. The memory for a block is given back as it goes on, also while its connection lasts: by threads to the C library,
    which may keep as much for each connection until that ends. Then others come, and it is the same."""
    with Fleet() as fleet:
        node = fleet.node("--capacity", str(KEPT))
        proxy = fleet.proxy(fleet.config([node]))
        files, threads = proxy.open_files(), proxy.thread_count()
        for _ in range(ROUNDS):
            clients = proxy.clients(CLIENTS)
            anyway, at_node = held_anyway((proxy, node), clients)
            while_there = anyway if proxy.loops else anyway + CLIENTS * LARGEST
            for number, client in enumerate(clients):
                client.send(set_of("k", block(number))[:-3])
                wait_until_read(client.socket)
            for number, client in enumerate(clients):
                client.ask(set_of("k", block(number))[-3:], STORED)
            expect_resident(proxy, while_there)
            for client in clients:
                client.ask(get_of("k"), hits(("k", block(CLIENTS - 1))))
            expect_resident(proxy, while_there)
            expect_resident(node, at_node + LARGEST)
            for client in clients:
                client.quit()
            wait_for_less("open files of the proxy", proxy.open_files, files)
            wait_for_less("threads of the proxy", proxy.thread_count, threads)
            expect_resident(proxy, anyway)
            expect_resident(node, at_node + LARGEST)


@case(quick=False)
def a_block_that_is_only_said_takes_no_memory():
    """Of 64 clients each says that 1,048,576 bytes come, and sends nothing or a few of them."""
    with Fleet() as fleet:
        for service in both(fleet):
            clients = service.clients(CLIENTS)
            for client in clients:
                client.ask(get_of("k"), MISS)
            held_anyway([service], clients)
            before = {name: service.memory(name) for name in ("VmRSS", "VmData")}
            for text in (b"set k 0 0 %d\r\n" % LARGEST, BYTES[:FEW]):
                for client in clients:
                    client.send(text)
                    wait_until_read(client.socket)
                for name, bytes_before in before.items():
                    wait_for_less(f"{name} of {service.name()}", lambda: service.memory(name), bytes_before + LITTLE)
            clients[0].ask(BYTES[FEW:LARGEST] + b"\r\n", STORED)
            for client in clients[1:]:
                client.close()
