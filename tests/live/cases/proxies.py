"""Proxies, before their migration begins: how requests reach nodes, and what becomes of the answers. What differs on loops is in
cases/loops.py."""
import random
import time

import refusals
from client import BUSY, DELETED, ERROR, LOST, MISS, NOT_FOUND, STORED, delete_of, get_of, hits, set_of
from fake import FakeNode, SlowNode, answering
from fleet import Fleet, Form
from placing import key_at, place_of
from ports import place_at
from running import case
from wanted import check


@case
def a_get_of_forty_keys_over_five_nodes_answers_in_order():
    """Each key lies at the node that the hash names, and nowhere else; values come in the order of the keys, misses left out."""
    with Fleet() as fleet:
        nodes = fleet.nodes(5)
        own = [it.client() for it in nodes]
        client = fleet.proxy(fleet.config(nodes)).client()
        keys = [f"key{n}" for n in range(50)]
        keys += [f"\x80\xff{n}" for n in range(4)]
        stored = [*keys[:36], *keys[-4:]]
        for key in stored:
            client.ask(set_of(key, f"value of {key}", flags=len(key)), STORED)
            held = [it.value_of(key) for it in own]
            wanted = [None] * 5
            wanted[place_of(key, 5)] = f"value of {key}"
            check(f"where {key} lies", wanted, held)
        random.Random(1).shuffle(keys)
        asked = [*keys, keys[3], keys[3]]
        found = [(key, f"value of {key}", len(key)) for key in asked if key in stored]
        client.ask(get_of(*stored), hits(*((key, f"value of {key}", len(key)) for key in stored)))
        client.ask(get_of(*asked), hits(*found))


@case
def a_get_of_a_thousand_keys_is_answered():
    """Each of them has its leg and its value. A node answers as many as fit a line, 4,094."""
    with Fleet() as fleet:
        node = fleet.node()
        for service, count in ((node, 4094), (fleet.proxy(fleet.config([node])), 1000)):
            client = service.client()
            client.ask(set_of("k", "v"), STORED)
            client.ask(get_of(*["k"] * count), hits(*[("k", "v")] * count))


@case
def nodes_of_one_port_are_told_apart_by_their_hosts():
    """A node's name is its whole address: here the port is the same, and the hosts are 127.0.0.2 and 127.0.0.3."""
    with Fleet() as fleet:
        hosts = ("127.0.0.2", "127.0.0.3")
        first = fleet.node(hosts=hosts)
        second = fleet.second_node(first, hosts[1])
        own = [it.client() for it in (first, second)]
        client = fleet.proxy(fleet.config([first, second])).client()
        for place in (0, 1, 1, 0):
            key = key_at(place, 2, stem=f"host{place}-")
            client.ask(set_of(key, "v"), STORED)
            check(f"where {key} lies", ["v" if place == n else None for n in (0, 1)], [it.value_of(key) for it in own])
            client.ask(delete_of(key), DELETED)


@case
def localhost_is_this_machine():
    """The host `localhost` is 127.0.0.1, where a proxy listens and where it finds a node."""
    with Fleet() as fleet:
        node = fleet.node()
        config = fleet.config([f"localhost:{node.place.port}"])
        proxy = fleet.proxy(config, hosts=("127.0.0.1",), host="localhost")
        proxy.ask(set_of("k", "v"), STORED, address=f"127.0.0.1:{proxy.place.port}")
        node.ask(get_of("k"), hits(("k", "v")))


@case
def a_node_whose_name_is_no_address_loses_its_legs():
    """Such a name is allowed in a configuration. The keys of other nodes are served. Also where the system would find the node
    by it, since no name is looked up: the node listens at this port of 127.0.0.1."""
    with Fleet() as fleet:
        node = fleet.node()
        port = node.place.port
        hosts = ("cache1", "LOCALHOST", "localhost.", "127.1", "1.2.3", "127.0.0", "256.1.1.1", "127.0.0.256", "01.2.3.4")
        hosts += ("127.0.0.01", "127.00.0.1", "0177.0.0.1", "0x7f.0.0.1", "2130706433", "127.0.0.1.", "+127.0.0.1", "[::1]")
        hosts += ("[127.0.0.1]", "::ffff:127.0.0.1", "")
        ports = ("0", f"0{port}", f"+{port}", "65536", str(port + 65536), "", f"{port}.", f"{port}:{port}", "0x50")
        names = [node.address, "7001", "127.0.0.1"]
        names += [f"{host}:{port}" for host in hosts] + [f"127.0.0.1:{it}" for it in ports]
        client = fleet.proxy(fleet.config(names)).client()
        for place, name in enumerate(names):
            client.send(set_of(key_at(place, len(names)), "v"))
            client.expect(LOST if place else STORED, what=f"the answer for a node of the name {name!r}")
        client.ask(get_of(key_at(0, len(names))), hits((key_at(0, len(names)), "v")))


@case
def a_node_whose_name_is_an_address_is_reached_there():
    """At one port, by the names 127.0.0.1, `localhost` and 127.0.0.2: the first two are one node."""
    with Fleet() as fleet:
        first = fleet.node(hosts=("127.0.0.1", "127.0.0.2"))
        second = fleet.second_node(first, "127.0.0.2")
        port = first.place.port
        names = [f"127.0.0.1:{port}", f"localhost:{port}", f"127.0.0.2:{port}"]
        client = fleet.proxy(fleet.config(names)).client()
        own = [it.client() for it in (first, second)]
        for place, name in enumerate(names):
            key = key_at(place, len(names))
            client.ask(set_of(key, name), STORED)
            wanted = (None, name) if place == 2 else (name, None)
            check(f"where {key} of {name} lies", wanted, tuple(it.value_of(key) for it in own))


@case
def flags_of_32_bits_come_back_through_a_proxy():
    """Flags are a number of the client's, which goes to the node and comes back as it was."""
    with Fleet() as fleet:
        client = fleet.proxy(fleet.config([fleet.node()])).client()
        for flags in (0, 1, 77, 65535, 65536, 2147483647, 2147483648, 4294967295):
            client.ask(set_of("k", "v", flags=flags), STORED)
            client.ask(get_of("k"), hits(("k", "v", flags)))


@case
def expiries_blocks_and_keys_go_through_a_proxy():
    """What a set says reaches the node whole: its block, a key of up to 250 bytes, an expiry that is over."""
    with Fleet() as fleet:
        client = fleet.proxy(fleet.config(fleet.nodes(2))).client()
        for length in (0, 1, 4096, 4097, 8192):
            block = (bytes(range(256)) * 32)[:length]
            client.ask(set_of("block", block), STORED)
            client.ask(get_of("block", "block"), hits(("block", block), ("block", block)))
        for length in (1, 64, 65, 250):
            client.ask(set_of("k" * length, "v"), STORED)
            client.ask(get_of("k" * length), hits(("k" * length, "v")))
            client.ask(delete_of("k" * length), DELETED)
            client.ask(delete_of("k" * length), NOT_FOUND)
        second = int(time.time())
        client.ask(set_of("past", "v", exptime=second - 1800) + get_of("past"), STORED + MISS)
        client.ask(set_of("later", "v", exptime=second + 1800) + get_of("later"), STORED + hits(("later", "v")))


@case(waits=True)
def a_request_waits_for_its_node_while_others_are_answered():
    """A slow node keeps those alone who asked for its keys, for as long as it takes, and nobody's request is given up for
    another one."""
    with Fleet() as fleet:
        slow = fleet.keep(SlowNode())
        fast = fleet.node()
        proxy = fleet.proxy(fleet.config([slow.address, fast]))
        slow_keys = [key_at(0, 2, stem=f"slow{n}-") for n in range(3)]
        fast_key = key_at(1, 2, stem="fast")
        patient, other, third = proxy.clients(3)
        patient.send(get_of(slow_keys[0]))
        slow.wait_for(1)
        other.ask(set_of(fast_key, "f"), STORED)
        other.ask(get_of(fast_key), hits((fast_key, "f")))
        other.send(get_of(slow_keys[1]))
        slow.wait_for(2)
        third.ask(delete_of(fast_key), DELETED)
        third.send(get_of(slow_keys[2]))
        slow.wait_for(3)
        time.sleep(1.5)
        slow.answer_all({key: f"late {key}" for key in slow_keys})
        for key, client in zip(slow_keys, (patient, other, third)):
            client.expect(hits((key, f"late {key}")), what=f"the late answer to get {key}")


@case
def sixty_four_requests_are_open_at_once_and_one_more_is_busy():
    """That is the room of a proxy by threads where its words don't say otherwise. What is refused reaches no node, and costs
    nothing."""
    with Fleet() as fleet:
        slow = fleet.keep(SlowNode())
        proxy = fleet.proxy_by_threads(fleet.config([slow.address]))
        keys = [f"key{n}" for n in range(64)]
        clients = proxy.clients(64)
        for count in (20, 64):
            for key, client in list(zip(keys, clients))[len(slow.requests()) : count]:
                client.send(get_of(key))
            slow.wait_for(count)
        late = proxy.client()
        late.ask(get_of("late"), BUSY)
        late.ask(set_of("late", "v", noreply=True) + get_of("late"), BUSY)
        slow.wait_for(64)
        slow.answer_all({key: f"value of {key}" for key in keys})
        for key, client in zip(keys, clients):
            client.expect(hits((key, f"value of {key}")), what=f"the answer to get {key}")
        late.send(get_of("late"))
        slow.wait_for(1)
        slow.answer_all({"late": "v"})
        late.expect(hits(("late", "v")))


@case
def a_proxy_has_the_room_that_its_words_say():
    """By threads: with room for two requests the third is busy, and without any each one is."""
    with Fleet() as fleet:
        slow = fleet.keep(SlowNode())
        config = fleet.config([slow.address])
        one, two, three = fleet.proxy_by_threads(config, "--room", "2").clients(3)
        one.send(get_of("a"))
        two.send(get_of("b"))
        slow.wait_for(2)
        three.ask(get_of("c"), BUSY)
        slow.answer_all({"a": "1"})
        one.expect(hits(("a", "1")))
        two.expect(MISS)
        three.send(get_of("c"))
        slow.wait_for(1)
        slow.answer_all({})
        three.expect(MISS)
        fleet.proxy_by_threads(config, "--room", "0").client().ask(get_of("d") + delete_of("d"), BUSY + BUSY)
        slow.wait_for(0)


@case
def what_asks_for_no_answer_changes_no_phase():
    """Before the migration begins all goes to the old pool, also behind a delete and a set with `noreply`."""
    with Fleet() as fleet:
        old, new = fleet.nodes(2)
        client = fleet.proxy(fleet.config([old], [new])).client()
        own, new_own = old.client(), new.client()
        own.ask(set_of("k", "o"), STORED)
        new_own.ask(set_of("k", "n"), STORED)
        client.ask(delete_of("k", noreply=True) + get_of("k"), MISS)
        client.ask(set_of("k", "v", noreply=True) + get_of("k"), hits(("k", "v")))
        client.ask(set_of("l", "w") + delete_of("m"), STORED + NOT_FOUND)
        check("k, l at the old node", ("v", "w"), (own.value_of("k"), own.value_of("l")))
        check("k, l at the new node", ("n", None), (new_own.value_of("k"), new_own.value_of("l")))


@case
def requests_reach_nodes_in_one_spelling():
    """A node is asked for what the client asked, in the protocol's own spelling and always for an answer. On loops the keys of one get
    that are a node's are one get, by threads each is one."""
    both = (get_of("k", "l"),) if Form.on_loops else (get_of("k"), get_of("l"))
    spelled = (
        (b"set  k 007 -0 3 \r\nabc\r\n", (set_of("k", "abc", flags=7),), STORED, STORED),
        (b"set k 0 100 1 noreply\nx\r\n", (set_of("k", "x", exptime=100),), STORED, b""),
        (b" get k  l\n", both, MISS, MISS),
        (b"delete k 0\r\n", (delete_of("k"),), NOT_FOUND, NOT_FOUND),
        (b"delete noreply 0 noreply\r\n", (delete_of("noreply"),), DELETED, b""),
    )
    with Fleet() as fleet:
        asked = []

        def answer(link):
            for _, wanted, told, _ in spelled:
                for _ in wanted:
                    asked.append(link.request())
                    link.send(told)
            link.request()

        node = fleet.keep(FakeNode(answer))
        client = fleet.proxy(fleet.config([node.address])).client()
        for request, wanted, _, told in spelled:
            asked.clear()
            client.ask(request + b"stats\r\n", told + ERROR)
            check(f"what the node is asked for {request!r}", b"".join(wanted), b"".join(asked))


@case
def a_proxy_needs_no_node_that_it_sends_nothing_to():
    """Before a migration the new pool needn't be there, after it the old one; by threads a node is connected to at its first leg."""
    with Fleet() as fleet:
        running, seen = fleet.nodes(2), fleet.keep(FakeNode(answering([])))
        here = [it.address for it in running]
        gone = [fleet.keep(place_at("127.0.0.1")).address(), seen.address]
        for config in (fleet.config(here, gone), fleet.config(gone, here, start=1000)):
            client = fleet.proxy_by_threads(config).client()
            for place in (0, 1):
                key = key_at(place, 2)
                client.ask(set_of(key, "v") + get_of(key) + delete_of(key), STORED + hits((key, "v")) + DELETED)
        check("connections to a node that gets no leg", 0, len(seen.links))


@case
def a_reply_in_pieces_is_put_together():
    """A node's reply may come in any number of reads."""
    block = bytes(range(256)) * 32
    whole = hits(("k", block))
    cuts = (0, 3, 11, 17, 20, 1000, 5000, len(whole) - 6, len(whole) - 1, len(whole))
    pieces = [whole[begin:end] for begin, end in zip(cuts, cuts[1:])]
    with Fleet() as fleet:
        node = fleet.keep(FakeNode(answering([pieces, [b"STOR", b"ED\r", b"\n"], [b"NOT_", b"FOUND\r\n"]])))
        client = fleet.proxy(fleet.config([node.address])).client()
        client.ask(get_of("k"), whole)
        client.ask(set_of("k", "v"), STORED)
        client.ask(delete_of("k"), NOT_FOUND)


@case
def the_turns_of_a_proxy_bound_the_reads_of_a_reply():
    """A reply that needs one read more is a lost leg; the next leg goes over a new connection, with turns of its own."""
    with Fleet() as fleet:
        in_three, in_four = [b"EN", b"D\r", b"\n"], [b"E", b"N", b"D\r", b"\n"]
        node = fleet.keep(FakeNode(answering([in_three, in_three, in_four])))
        proxy = fleet.proxy(fleet.config([node.address]), "--turns", "3")
        for _ in range(2):
            client = proxy.client()
            client.ask(get_of("k"), MISS)
            client.ask(get_of("k"), MISS)
            client.ask(get_of("k"), LOST)
        check("connections to the node", 2, len(node.links))


@case
def what_a_node_refuses_is_passed_on():
    """An error of a node is the server's to a client, with its own text, and by threads the connections go on."""
    with Fleet() as fleet:
        passed = (
            (b"SERVER_ERROR out of memory\r\n", b"SERVER_ERROR out of memory\r\n"),
            (b"SERVER_ERROR words of  its own \r\n", b"SERVER_ERROR words of  its own \r\n"),
            (b"SERVER_ERROR\r\n", b"SERVER_ERROR \r\n"),
            (b"CLIENT_ERROR bad key\r\n", b"SERVER_ERROR bad key\r\n"),
            (b"ERROR\r\n", b"SERVER_ERROR node refused\r\n"),
            (hits(("k", "v")), hits(("k", "v"))),
        )
        node = fleet.keep(FakeNode(answering([told for told, _ in passed])))
        client = fleet.proxy_by_threads(fleet.config([node.address])).client()
        for _, wanted in passed:
            client.ask(get_of("k"), wanted)
        check("connections to the node", 1, len(node.links))


@case
def a_reply_to_something_else_is_a_lost_leg():
    """What isn't an answer to the leg's request breaks the link, and by threads the next leg goes over a new one."""
    with Fleet() as fleet:
        strange = (STORED, DELETED, hits(("l", "v")), hits(("k", "v"), ("k", "v")), b"VALUE k\r\n", b"huh\r\n")
        node = fleet.keep(FakeNode(lambda link: answering([hits(("k", "v")), *strange[link.number :][:1]])(link)))
        client = fleet.proxy_by_threads(fleet.config([node.address])).client()
        for _ in strange:
            client.ask(get_of("k"), hits(("k", "v")))
            client.ask(get_of("k"), LOST)
        client.ask(get_of("k"), hits(("k", "v")))
        check("connections to the node", len(strange) + 1, len(node.links))


@case
def a_node_that_ends_within_a_reply_loses_the_leg():
    """What came of a block isn't handed on, and by threads the next leg goes over a new link."""
    with Fleet() as fleet:
        replies = (b"VALUE k 0 5\r\nab", b"VALUE k 0 5\r\nabcde\r\n", b"VALUE k", b"EN")
        node = fleet.keep(FakeNode(lambda link: link.request() and link.send((*replies, hits(("k", "v")))[link.number])))
        client = fleet.proxy_by_threads(fleet.config([node.address])).client()
        for _ in replies:
            client.ask(get_of("k"), LOST)
        client.ask(get_of("k"), hits(("k", "v")))


@case
def a_node_that_closes_after_each_reply_loses_each_second_leg():
    """A proxy by threads finds out by a leg that its link is gone: that leg is lost, and the next one goes over a new link."""
    with Fleet() as fleet:
        node = fleet.keep(FakeNode(lambda link: link.request() and link.send(hits(("k", f"link {link.number}")))))
        client = fleet.proxy_by_threads(fleet.config([node.address])).client()
        for number in range(5):
            client.ask(get_of("k"), hits(("k", f"link {number}")))
            client.ask(get_of("k"), LOST)


@case
def a_node_may_go_away_and_come_back():
    """Its keys are lost meanwhile, all others are served; once it is back each connection of a proxy by threads that knew it before
    loses one leg."""
    with Fleet() as fleet:
        away, other = fleet.nodes(2)
        proxy = fleet.proxy_by_threads(fleet.config([away, other]))
        key, staying = key_at(0, 2), key_at(1, 2)
        asking, silent = proxy.clients(2)
        for client in (asking, silent):
            client.ask(set_of(key, "v") + set_of(staying, "s"), STORED * 2)
        away.kill()
        for client in (asking, proxy.client()):
            for _ in range(3):
                client.ask(get_of(key), LOST)
                client.ask(get_of(staying), hits((staying, "s")))
            client.ask(get_of(staying, key), LOST)
            client.ask(set_of(key, "w"), LOST)
            client.ask(set_of(key, "w", noreply=True) + get_of(staying), hits((staying, "s")))
        away.begin_again()
        asking.ask(get_of(key), MISS)
        asking.ask(set_of(key, "x"), STORED)
        silent.ask(get_of(key), LOST)
        for client in (silent, asking, proxy.client()):
            client.ask(get_of(key, staying), hits((key, "x"), (staying, "s")))


@case
def the_connections_of_a_client_to_nodes_end_with_it():
    """One connection leads to a node for each client of a proxy by threads, and no longer than that client is there. The proxy goes
    on."""
    with Fleet() as fleet:
        node = fleet.node(clients=3)
        proxy = fleet.proxy_by_threads(fleet.config([node]))
        for number in range(3):
            with proxy.client() as client:
                for turn in range(5):
                    client.ask(set_of("k", f"{number} {turn}"), STORED)
                    client.ask(get_of("k"), hits(("k", f"{number} {turn}")))
                client.ask(b"stats\r\n", ERROR)
                client.quit()
        node.expect_served(3)


@case
def a_proxy_answers_each_refusal():
    """By docs/PROTOCOL.md, "What a client is answered": the connection goes on or ends, and no node sees any of it."""
    with Fleet() as fleet:
        asked = []
        node = fleet.keep(FakeNode(lambda link: asked.extend(iter(lambda: answer_miss(link), b""))))
        proxy = fleet.proxy(fleet.config([node.address]))
        refusals.look_at(proxy)
        check("what the node was asked", {get_of("absent")}, set(asked))


def answer_miss(link):
    """Answers a get that finds nothing, and gives what was asked."""
    request = link.request()
    if request:
        link.send(MISS)
    return request
