"""Nodes and clients that are silent: how long a leg waits for its node, and a service for its client."""
import time

from cases.migrations import HOUR, Pools
from client import LOST, MISS, NOT_FOUND, STORED, delete_of, get_of, hits, set_of
from fake import FullQueue, SlowNode
from fleet import Fleet
from placing import key_at
from running import case
from wanted import Wrong, check


def check_took(what, begun, least, most):
    """What began then took so many seconds."""
    took = time.monotonic() - begun
    if not least <= took <= most:
        raise Wrong(f"the seconds until {what}", f"{least} to {most}", f"{took:.2f}")


@case(waits=True)
def a_leg_whose_node_is_silent_is_lost_after_its_time():
    """By threads its place is free then, its connection carries no leg again, and what comes over it late answers nothing."""
    with Fleet() as fleet:
        slow = fleet.keep(SlowNode())
        fast = fleet.node()
        proxy = fleet.proxy_by_threads(fleet.config([slow.address, fast]), "--room", "1", "--leg-timeout", "700")
        key, other_key = key_at(0, 2), key_at(1, 2)
        client, other = proxy.clients(2)
        for number, request in enumerate((get_of(key), set_of(key, "v"), delete_of(key))):
            begun = time.monotonic()
            client.ask(request, LOST)
            check_took(f"{request[:6]!r} was lost", begun, 0.65, 5)
            check("connections to the silent node", number + 1, len(slow.links))
            other.ask(set_of(other_key, "f"), STORED)
        slow.answer_all({key: "late"})
        client.send(get_of(key))
        slow.wait_for(1)
        slow.answer_all({key: "in time"})
        client.ask(b"", hits((key, "in time")))
        client.ask(get_of(other_key), hits((other_key, "f")))


@case(waits=True)
def a_leg_whose_node_answers_piece_by_piece_is_not_lost():
    """By threads the bound is of each read, not of all of them."""
    with Fleet() as fleet:
        slow = fleet.keep(SlowNode())
        client = fleet.proxy_by_threads(fleet.config([slow.address]), "--leg-timeout", "900").client()
        client.send(get_of("k"))
        slow.wait_for(1)
        (link, _), = slow.waiting
        for piece in (b"VALUE k 0 ", b"3\r\nab", b"c\r\n", b"END\r\n"):
            time.sleep(0.4)
            link.send(piece)
        client.expect(hits(("k", "abc")))


@case(waits=True)
def a_leg_may_wait_for_its_node_as_long_as_it_takes():
    """Where the bound is 0 there is none."""
    with Fleet() as fleet:
        slow = fleet.keep(SlowNode())
        client = fleet.proxy(fleet.config([slow.address]), "--leg-timeout", "0").client()
        client.send(get_of("k"))
        slow.wait_for(1)
        time.sleep(6)
        slow.answer_all({"k": "v"})
        client.expect(hits(("k", "v")))


@case(waits=True)
def a_leg_waits_five_seconds_where_the_words_do_not_say_it():
    """And is lost then."""
    with Fleet() as fleet:
        slow = fleet.keep(SlowNode())
        client = fleet.proxy(fleet.config([slow.address])).client()
        begun = time.monotonic()
        client.ask(get_of("k"), LOST)
        check_took("the leg was lost", begun, 4.9, 12)


@case(waits=True)
def a_stopped_node_costs_its_own_keys_alone():
    """In a middle phase, 80 clients ask for its keys and 20 for others, which are served throughout. A delete that needs it
    is never acknowledged. Once it goes on everything is served, on loops as soon as their links are up, and nothing that was
    deleted comes back."""
    with Fleet() as fleet:
        pools = Pools(fleet)
        config = pools.config(fleet, int(time.time()) - HOUR // 2, HOUR)
        proxy = fleet.proxy(config, "--room", "256", "--leg-timeout", "3000")
        stuck = [pools.key(0, number % 3, f"stuck{number}-") for number in range(80)]
        free = [pools.key(1, number % 3, f"free{number}-") for number in range(20)]
        asking, others = proxy.clients(80), proxy.clients(20)
        for key, client in zip(stuck, asking):
            client.ask(set_of(key, "v") + delete_of(key), STORED + NOT_FOUND)
        pools.old[0].stop()
        try:
            for request in (get_of, delete_of):
                for key, client in zip(stuck, asking):
                    client.send(request(key))
                for number in range(10):
                    for key, client in zip(free, others):
                        client.ask(set_of(key, f"{number}") + get_of(key), STORED + hits((key, f"{number}")))
                for key, client in zip(stuck, asking):
                    client.expect(LOST, what=f"the answer for {key} at the stopped node")
        finally:
            pools.old[0].go_on()
        for key, client in zip(stuck, asking):
            if proxy.loops:
                client.ask_until(get_of(key), MISS, LOST)
            client.ask(get_of(key), MISS)
            client.ask(set_of(key, "w") + get_of(key), STORED + hits((key, "w")))
            client.ask(delete_of(key) + get_of(key), NOT_FOUND + MISS)


@case(waits=True)
def a_node_that_accepts_nobody_loses_its_legs():
    """Its queue of connections is full, so that connecting to it takes until the system gives up: by threads the leg waits for
    that."""
    with Fleet() as fleet:
        full = fleet.keep(FullQueue())
        client = fleet.proxy_by_threads(fleet.config([full.address]), "--leg-timeout", "700").client()
        begun = time.monotonic()
        client.ask(get_of("k"), LOST)
        check_took("the leg was lost", begun, 0.65, 5)


@case(waits=True)
def a_silent_client_is_ended_after_its_time():
    """One that sends a third of a set and sleeps, and one that reads nothing of what it is answered, end and count as
    faults. One that pauses for a shorter time is served on."""
    with Fleet() as fleet:
        block = bytes(range(256)) * 32
        words = ("--idle-timeout", "2")
        for service in (fleet.node(*words, clients=3), fleet.proxy(fleet.config(fleet.nodes(1)), *words, clients=3)):
            cutting, greedy, pausing = service.client(), service.client(little_room=True), service.client()
            pausing.ask(set_of("k", block), STORED)
            cutting.send(b"set k 0 0 30\r\nten bytes.")
            greedy.send(get_of("k") * 200)
            for _ in range(4):
                time.sleep(0.7)
                pausing.ask(get_of("k"), hits(("k", block)))
            cutting.expect_end()
            pausing.quit()
            service.expect_served(1, status=1)
            greedy.close()


@case(waits=True)
def a_client_may_be_silent_where_the_words_do_not_bound_it():
    """It is served after its pause."""
    with Fleet() as fleet:
        for service in (fleet.node(), fleet.proxy(fleet.config(fleet.nodes(1)), "--idle-timeout", "0")):
            client = service.client()
            client.ask(set_of("k", "v"), STORED)
            time.sleep(2.5)
            client.ask(get_of("k"), hits(("k", "v")))
