"""Nodes, proxies and services at other addresses than the machine's own loop: in a network of their own, which nobody else has."""
import ctypes
import json
import os
import subprocess
import threading
import time

from client import DELETED, MISS, NOT_FOUND, STORED, delete_of, get_of, hits, set_of
from fake import Teller
from fleet import Fleet
from placing import key_at
from ports import place_at
from running import case
from scraping import scraped
from skipping import skip
from telling import proxy_text, stats_text
from wanted import check, check_true

CLONE_NEWNET = 0x40000000
LIBC = ctypes.CDLL(None, use_errno=True)
HOSTS = [f"10.77.0.{number}" for number in range(5, 11)]


class NotPermitted(Exception):
    """A network of its own can't be made here."""


def make_network():
    """From now on this thread, and what it starts, is in a network of its own, which has these addresses and nothing else. It is gone
    with them."""
    if LIBC.unshare(CLONE_NEWNET) != 0:
        raise NotPermitted(os.strerror(ctypes.get_errno()))
    for words in (["link", "set", "lo", "up"], *(["addr", "add", f"{host}/24", "dev", "lo"] for host in HOSTS)):
        try:
            done = subprocess.run(["ip", *words], stdin=subprocess.DEVNULL, capture_output=True, text=True)
        except OSError as fault:
            raise NotPermitted(f"ip: {fault}") from fault
        if done.returncode != 0:
            raise NotPermitted(f"ip {' '.join(words)}: {done.stderr.strip()}")


def far_away(does):
    """Does something in a network of its own, in a thread of its own, or says why it can't."""
    def alone():
        name = does.__name__
        failures = []

        def work():
            try:
                make_network()
                does()
            except NotPermitted as why:
                skip(name, f"no network namespace can be made: {why}")
            except Exception as error:  # of a thread of its own, raised again below
                failures.append(error)

        thread = threading.Thread(target=work, daemon=True)
        thread.start()
        thread.join()
        if failures:
            raise failures[0]

    alone.__name__ = does.__name__
    return alone


class FarNodes:
    """Two nodes of an old pool and one of a new pool, all at one port of three hosts, and one at that port of this machine's own
    loop, where nobody has any business."""

    def __init__(self, fleet):
        self.nodes = [fleet.node(hosts=(*HOSTS[:3], "127.0.0.1"))]
        self.nodes += [fleet.second_node(self.nodes[0], host) for host in HOSTS[1:3]]
        self.decoy = fleet.second_node(self.nodes[0], "127.0.0.1")
        self.own = [it.client() for it in (*self.nodes, self.decoy)]

    def held(self, key):
        """What each of them holds, the one on the loop last."""
        return [it.value_of(key) for it in self.own]


def look_at(nodes, client, key, number):
    """A set, a get and a delete of a key go to the node of this number, and to no other."""
    wanted = [None] * 4
    check("where nothing lies yet", wanted, nodes.held(key))
    client.ask(set_of(key, f"v{number}"), STORED)
    wanted[number] = f"v{number}"
    check(f"where {key} lies", wanted, nodes.held(key))
    client.ask(get_of(key), hits((key, f"v{number}")))
    for other in range(4):
        nodes.own[other].ask(set_of(key, f"of {other}"), STORED)
    client.ask(get_of(key), hits((key, f"of {number}")))
    client.ask(delete_of(key), DELETED)
    left = [f"of {other}" if other != number else None for other in range(4)]
    check(f"where {key} is left", left, nodes.held(key))


@case(waits=True)
@far_away
def far_nodes_are_sought_where_they_are():
    """By a proxy on loops and by one by threads, each at a far address itself: before a migration and behind it."""
    with Fleet() as fleet:
        nodes = FarNodes(fleet)
        addresses = [it.address for it in nodes.nodes]
        before = fleet.config(addresses[:2], addresses[2:])
        behind = fleet.config(addresses[:2], addresses[2:], start=1000, interval=10)
        for serve in (fleet.proxy_by_threads, fleet.proxy_on_loops):
            client = serve(before, hosts=(HOSTS[3],)).client()
            client.ask_until(get_of(key_at(0, 2), key_at(1, 2)), MISS, b"SERVER_ERROR leg lost\r\n")
            look_at(nodes, client, key_at(0, 2, stem=serve.__name__), 0)
            look_at(nodes, client, key_at(1, 2, stem=serve.__name__), 1)
            client = serve(behind, hosts=(HOSTS[4],)).client()
            client.ask_until(get_of("any"), MISS, b"SERVER_ERROR leg lost\r\n")
            look_at(nodes, client, f"{serve.__name__}-behind", 2)


@case(waits=True)
@far_away
def far_services_are_asked_where_they_are():
    """A watch asks for metrics and for stats at far addresses: something else is told at the same ports of this machine's own loop."""
    with Fleet() as fleet:
        far = Teller(lambda _: stats_text(42, 43), host=HOSTS[0])
        fleet.keep(far)
        port = int(far.address.rsplit(":", 1)[1])
        near = fleet.keep(Teller(lambda _: stats_text(13, 14), host="127.0.0.1", port=port))
        told = fleet.keep(Teller(lambda _: proxy_text("both-read-old", held=77), host=HOSTS[1]))
        port = int(told.address.rsplit(":", 1)[1])
        near_told = fleet.keep(Teller(lambda _: proxy_text("new-only", held=5), host="127.0.0.1", port=port))
        config = fleet.config([far.address], [f"{HOSTS[2]}:9"], start=int(time.time()) - 10, interval=1000)
        _, output, _ = fleet.run("watch", "--config", config, "--once", "--json", told.address)
        shown = json.loads(output)
        check("items and hits of the far memcached", [(42, 43), (None, None)], [(it["items"], it["hits"]) for it in shown["nodes"]])
        proxy, = shown["proxies"]
        check("what the far proxy tells", (True, "both-read-old", 77), (proxy["reached"], proxy["phase"], proxy["held_back"]))
        check("how often the near ones were asked", (0, 0), (near.asked, near_told.asked))


@case(waits=True)
@far_away
def a_service_listens_at_its_far_address_alone():
    """Nodes and proxies on loops and by threads, and where they tell their metrics: nobody is there at the same ports of other
    addresses."""
    with Fleet() as fleet:
        place, telling = HOSTS[0], HOSTS[1]
        told = fleet.node("--metrics", far_place(fleet, telling), hosts=(place,))
        config = fleet.config([told])
        proxy = fleet.proxy(config, "--metrics", far_place(fleet, telling), hosts=(place,))
        by_threads = (fleet.node_by_threads(hosts=(place,)), fleet.proxy_by_threads(config, hosts=(place,)))
        for service in (told, proxy, *by_threads):
            service.ask(get_of("k") + delete_of("k"), MISS + NOT_FOUND)
            expect_nobody_else_at(service, service.address)
        for service in (told, proxy):
            check_true("it tells of itself", scraped(service.metrics)[("migctl_connections_total",)] >= 1)
            expect_nobody_else_at(service, service.metrics)


def expect_nobody_else_at(service, address):
    """Who asks at the port of an address of a service, but at another host, finds nobody."""
    port = address.rsplit(":", 1)[1]
    for host in ("127.0.0.1", HOSTS[5]):
        try:
            service.ask(get_of("k"), MISS, f"{host}:{port}")
        except ConnectionRefusedError:
            continue
        check(f"who listens at {host}:{port}", "nobody", "somebody")


def far_place(fleet, host):
    """A free port of a far host."""
    return fleet.keep(place_at(host)).address()
