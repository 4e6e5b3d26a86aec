"""What readers keep: a stream of small requests keeps nothing of a megabyte that went before, and one that always has a rest doesn't
grow."""
import os

from beside import MIB, UNPROVED, in_threads, told_node, told_proxy, wait_for_links, wait_until
from client import MISS, STORED, get_of, hits, set_of
from fake import FakeNode
from fleet import Fleet
from running import case
from wanted import Wrong

CLIENTS = 8 if UNPROVED else 64
LARGE = bytes(range(97, 123)) * 40330
LARGE = LARGE[: 1 << 20]  # as large as a value may be
SMALL = 20  # requests behind the large one
# What the C library keeps of large values: twice the largest one for each of its arenas, of which there are two a processor.
ALLOWED = (4 * len(os.sched_getaffinity(0)) + 4) * MIB
GROWN = 5 * MIB if UNPROVED else 3 * MIB
# An unproved program keeps what it needed for values of this size, and gives back what larger ones need.
WARMING, WARMED = ([set_of("k", "v" * 250_000)], [STORED]) if UNPROVED else ([], [])
STREAM = (1500, 8000) if UNPROVED else (20_000, 2000)  # requests of a stream, and the bytes of each value


def allowed(service):
    """How much more memory a service may have behind large values. An unproved one that has a thread for each client keeps thrice as
    much as each sent."""
    if not UNPROVED:
        return ALLOWED
    return (10 if service.loops else 35) * CLIENTS * MIB // 10


def expect_resident(service, most, what):
    """Its resident memory comes to be as much at most."""
    try:
        wait_until(what, lambda: service.memory("VmRSS") <= most, 5)
    except Wrong:
        raise Wrong(f"the resident memory of {service.name()} behind {what}", f"{most:,} at most", f"{service.memory('VmRSS'):,}") from None


def send_with_rests(client, requests, answers, last=b""):
    """Sends requests so that each piece has the end of one and the beginning of the next: what is left of a piece is never nothing, and
    in the end a part of the last one. Gives the other part."""
    begun = b""
    for request, answer, following in zip(requests, answers, [*requests[1:], last]):
        cut = len(following) // 3
        client.send(request[len(begun) :] + following[:cut])
        begun = following[:cut]
        client.expect(answer)
    return last[len(begun) :]


def look_at_large(service, others, with_rests):
    """Each of many clients sets a megabyte, and then goes on with small requests, all the while connected."""
    clients = service.clients(CLIENTS)
    small, answers = [set_of("s", "v"), get_of("s")] * (SMALL // 2), [STORED, hits(("s", "v"))] * (SMALL // 2)
    for client in clients:
        for request, answer in zip([*small[:2], *WARMING], [*answers[:2], *WARMED]):
            client.ask(request, answer)
    before = {it: it.memory("VmRSS") for it in (service, *others)}
    left = b""
    for client in clients:
        if with_rests:
            left = send_with_rests(client, [set_of("k", LARGE), *small], [STORED, *answers], get_of("s"))
        else:
            client.ask(set_of("k", LARGE), STORED)
            for request, answer in zip(small, answers):
                client.ask(request, answer)
    for it, resident in before.items():
        expect_resident(it, resident + allowed(it) + MIB, f"{CLIENTS} streams that had a megabyte each")
    for client in clients:
        client.ask(left, hits(("s", "v")) if left else b"")
        client.quit()


@case
def a_stream_of_small_requests_keeps_nothing_of_a_megabyte():
    """Of sixty-four clients that each set one and go on, at a node and at a proxy: also where what they send always has a rest."""
    with Fleet() as fleet:
        jobs = []
        for with_rests in (False, True):
            node = told_node(fleet)
            behind = told_node(fleet)
            proxy = told_proxy(fleet, fleet.config([behind]), "--loops", "2", "--leg-timeout", "0")
            wait_for_links(proxy, behind)
            jobs.append(lambda it=node, with_rests=with_rests: look_at_large(it, [], with_rests))
            jobs.append(lambda it=proxy, behind=behind, with_rests=with_rests: look_at_large(it, [behind], with_rests))
        in_threads(*jobs)


@case
def a_stream_that_always_has_a_rest_does_not_grow():
    """Forty megabytes of requests over one connection, of which each piece ends within the next one: at a node and at a proxy."""
    count, size = STREAM
    requests = [set_of("k", b"%06d" % number + b"v" * size) for number in range(count)]
    with Fleet() as fleet:
        node = told_node(fleet)
        behind = told_node(fleet)
        proxy = told_proxy(fleet, fleet.config([behind]), "--loops", "1", "--leg-timeout", "0")
        wait_for_links(proxy, behind)

        def look(service, others):
            client = service.client()
            few = count // 10
            send_with_rests(client, requests[:few], [STORED] * few)
            client.ask(get_of("absent"), MISS)
            before = {it: it.memory("VmRSS") for it in (service, *others)}
            left = send_with_rests(client, requests, [STORED] * count, get_of("k"))
            for it, resident in before.items():
                expect_resident(it, resident + GROWN, f"{count} requests of which each piece left a rest")
            client.ask(left, hits(("k", requests[-1].split(b"\r\n")[1])))

        in_threads(lambda: look(node, []), lambda: look(proxy, [behind]))


class HoldingBack(FakeNode):
    """A node whose replies come in pieces of which each has the end of one and the beginning of the next."""

    def __init__(self, value):
        self.reply = hits(("k", value))
        super().__init__(self.answer)

    def answer(self, link):
        """Answers gets of one key, each once the next one has come, and a third of the next reply with it."""
        cut = len(self.reply) // 3
        begun = 0
        if not link.request():
            return
        while link.request():
            link.send(self.reply[begun:] + self.reply[:cut])
            begun = cut


@case
def replies_that_always_leave_a_rest_do_not_grow():
    """Forty megabytes of a node's replies, of which each piece ends within the next one."""
    count, size = STREAM
    with Fleet() as fleet:
        value = b"v" * size
        node = fleet.keep(HoldingBack(value))
        proxy = told_proxy(fleet, fleet.config([node.address]), "--loops", "1")
        wait_for_links(proxy, node)
        client = proxy.client()
        client.send(get_of("k"))

        def ask(number):
            for _ in range(number):
                client.send(get_of("k"))
                client.expect(hits(("k", value)))

        ask(count // 10)
        before = proxy.memory("VmRSS")
        ask(count)
        expect_resident(proxy, before + GROWN, f"{count} replies of which each piece left a rest")
