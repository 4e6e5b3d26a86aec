"""Nodes: what they keep, for how long, and how they answer."""
import pathlib
import time

import refusals
from client import DELETED, MISS, NOT_FOUND, STORED, delete_of, get_of, hits, set_of
from fleet import Fleet
from moments import moment, now
from running import case
from wanted import check_true

# Keys whose hashes by SipHash-1-3 without a seed agree in the bits that the map of a node's keys goes by.
TOGETHER = (pathlib.Path(__file__).resolve().parent.parent / "keys_that_fall_together.txt").read_text(encoding="ascii").split()


@case(waits=True)
def items_expire_on_a_connection_that_stays_open():
    """Up to thirty days an exptime counts seconds from its set: by the node's clock at each request, in whole seconds."""
    with Fleet() as fleet:
        node = fleet.node()
        client, early = node.clients(2)
        early.ask(get_of("one"), MISS)
        with now() as begin:
            client.ask(set_of("one", "1", exptime=1), STORED)
            client.ask(set_of("five", "5", exptime=5), STORED)
            client.ask(set_of("days", "d", exptime=2592000), STORED)
            client.ask(set_of("past", "p", exptime=-1), STORED)
            client.ask(get_of("five", "days", "past"), hits(("five", "5"), ("days", "d")))
        for second, left in ((2, [("five", "5"), ("days", "d")]), (6, [("days", "d")])):
            with moment(begin + second):
                for it in (client, early, node.client()):
                    it.ask(get_of("one", "five", "days"), hits(*left))
        client.ask(delete_of("five"), NOT_FOUND)
        client.ask(delete_of("days"), DELETED)


@case(waits=True)
def an_expiry_above_thirty_days_is_a_moment_of_the_machines_clock():
    """The node's clock is the machine's: an item is there in the last second before its moment, and gone in the next one."""
    with Fleet() as fleet:
        client = fleet.node().client()
        second = int(time.time())
        with now():
            client.ask(set_of("past", "p", exptime=second - 1), STORED)
            client.ask(set_of("soon", "s", exptime=second + 3), STORED)
            client.ask(set_of("half_an_hour_ago", "a", exptime=second - 1800), STORED)
            client.ask(set_of("in_half_an_hour", "i", exptime=second + 1800), STORED)
            client.ask(set_of("in_1970", "x", exptime=2592001), STORED)
        keys = ("past", "soon", "half_an_hour_ago", "in_half_an_hour", "in_1970")
        with moment(second + 2.5):
            client.ask(get_of(*keys), hits(("soon", "s"), ("in_half_an_hour", "i")))
        with moment(second + 3.5):
            client.ask(get_of(*keys), hits(("in_half_an_hour", "i")))


@case
def a_node_keeps_1024_items_and_not_one_more():
    """That is what it may hold where its words don't say otherwise. The next item drops the one that was used longest ago."""
    with Fleet() as fleet:
        client = fleet.node().client()
        keys = [f"k{n}" for n in range(1025)]
        kept = 0
        for count in (65, 1000, 1024):
            client.ask(b"".join(set_of(key, f"v{key}") for key in keys[kept:count]), STORED * (count - kept))
            kept = count
            some = [*keys[2:64:7], *keys[64:count:97]]
            client.ask(get_of(*some), hits(*((key, f"v{key}") for key in some)))
        client.ask(set_of(keys[1024], "v"), STORED)
        client.ask(get_of(keys[0], keys[1]), hits((keys[1], f"v{keys[1]}")))


@case
def a_full_node_drops_what_was_used_longest_ago():
    """A hit and a second set are uses, a delete makes room; the capacity is that of all clients together."""
    with Fleet() as fleet:
        node = fleet.node("--capacity", "3")
        client, other = node.clients(2)
        client.ask(set_of("a", "1") + set_of("b", "2"), STORED * 2)
        other.ask(set_of("c", "3"), STORED)
        client.ask(get_of("a"), hits(("a", "1")))  # in order of use now: b, c, a
        other.ask(set_of("d", "4"), STORED)  # c, a, d
        client.ask(get_of("b"), MISS)
        client.ask(get_of("c", "a", "d"), hits(("c", "3"), ("a", "1"), ("d", "4")))
        other.ask(set_of("c", "5"), STORED)  # a, d, c
        client.ask(set_of("e", "6"), STORED)  # d, c, e
        other.ask(get_of("a", "d", "c", "e"), hits(("d", "4"), ("c", "5"), ("e", "6")))
        client.ask(delete_of("c"), DELETED)
        client.ask(set_of("f", "7"), STORED)
        other.ask(get_of("d", "e", "f"), hits(("d", "4"), ("e", "6"), ("f", "7")))


@case
def a_capacity_takes_no_memory_before_there_are_items():
    """A node may have room for any number of items that can be said."""
    with Fleet() as fleet:
        client = fleet.node("--capacity", str(2**64 - 1)).client()
        client.ask(set_of("k", "v") + get_of("k"), STORED + hits(("k", "v")))


def seconds_spent_on(node, keys):
    """The processor time that a node takes for a set of each of these keys and 60 gets of each, in seconds."""
    client = node.client()
    before = node.processor_seconds()
    client.ask(b"".join(set_of(key, "v") for key in keys), STORED * len(keys))
    for _ in range(60):
        for begin in range(0, len(keys), 100):
            some = keys[begin : begin + 100]
            client.ask(get_of(*some), hits(*((key, "v") for key in some)))
    return node.processor_seconds() - before


@case
def keys_that_fall_together_without_a_seed_are_found_as_soon_as_others():
    """A node hashes keys by a seed that whoever chose these keys didn't know."""
    with Fleet() as fleet:
        others = [f"k{n:04}" for n in range(len(TOGETHER))]
        usual = seconds_spent_on(fleet.node("--capacity", "10000"), others)
        spent = seconds_spent_on(fleet.node("--capacity", "10000"), TOGETHER)
        check_true(f"that {spent:.2f} s are at most three times {usual:.2f} s", spent <= 3 * usual + 0.1)


@case
def keys_of_up_to_250_bytes_are_kept():
    """Each is stored, found, deleted once, and gone then; a key differs from another one in its last byte alone. Any bytes
    are allowed but spaces and control characters."""
    with Fleet() as fleet:
        client = fleet.node().client()
        for key in (*("k" * length for length in (1, 63, 64, 65, 128, 249, 250)), "!~\x80\xff"):
            other = key[:-1] + "l"
            client.ask(delete_of(key), NOT_FOUND)
            client.ask(get_of(key), MISS)
            client.ask(set_of(key, "v"), STORED)
            client.ask(get_of(other, key), hits((key, "v")))
            client.ask(delete_of(other), NOT_FOUND)
            client.ask(delete_of(key), DELETED)
            client.ask(get_of(key), MISS)
            client.ask(delete_of(key), NOT_FOUND)


@case
def blocks_of_any_bytes_are_kept():
    """They come back as they were, line ends among them."""
    with Fleet() as fleet:
        client = fleet.node().client()
        for length in (0, 1, 2, 4095, 4096, 4097, 8191, 8192):
            block = (bytes(range(256)) * 32 + b"\r\nEND\r\n")[-length:] if length else b""
            client.ask(set_of("k", block), STORED)
            client.ask(get_of("k", "k"), hits(("k", block), ("k", block)))


@case
def flags_of_32_bits_come_back_from_a_node():
    """Flags are a number of the client's, which a node gives back as it came."""
    with Fleet() as fleet:
        client = fleet.node().client()
        for flags in (0, 1, 77, 65535, 65536, 2147483647, 2147483648, 4294967295):
            client.ask(set_of("k", "v", flags=flags), STORED)
            client.ask(get_of("k"), hits(("k", "v", flags)))


@case
def clients_of_a_node_share_one_cache():
    """What one client sets another one gets, and what one deletes is gone for all."""
    with Fleet() as fleet:
        node = fleet.node()
        one, two = node.clients(2)
        one.ask(set_of("k", "v"), STORED)
        two.ask(get_of("k"), hits(("k", "v")))
        two.ask(set_of("k", "w"), STORED)
        one.ask(get_of("k"), hits(("k", "w")))
        one.quit()
        two.ask(get_of("k"), hits(("k", "w")))
        node.client().ask(delete_of("k"), DELETED)
        two.ask(get_of("k"), MISS)


@case
def what_asks_for_no_answer_gets_none():
    """A set and a delete with `noreply` are done, and the next answer is that of the next request."""
    with Fleet() as fleet:
        client = fleet.node().client()
        client.ask(set_of("a", "1", noreply=True) + set_of("b", "2") + get_of("a", "b"), STORED + hits(("a", "1"), ("b", "2")))
        client.ask(delete_of("a", noreply=True) + get_of("a"), MISS)
        client.ask(b"delete b 0 noreply\r\n" + get_of("b"), MISS)


@case
def a_node_answers_each_refusal():
    """By docs/PROTOCOL.md, "What a client is answered": the connection goes on or ends."""
    with Fleet() as fleet:
        node = fleet.node()
        refusals.look_at(node)
        node.ask(set_of("k", "v") + get_of("k"), STORED + hits(("k", "v")))
