"""Metrics: what running nodes and proxies tell those that scrape them, and what these can't hinder."""
import hashlib
import json
import os
import pathlib
import random
import socket
import threading
import time

from cases.silence import check_took
from client import DELETED, LOST, MISS, NOT_FOUND, PATIENCE, SETTLING, STORED, Client, delete_of, get_of, hits, set_of
from fake import SlowNode
from fleet import Fleet
from moments import moment, within
from placing import key_at
from ports import place_at
from reading import wait_until_read
from running import case
from scraping import asked, scraped, wait_for
from wanted import Wrong, check, check_true

UNPROVED = "MIGCTL_UNPROVED" in os.environ
ANSWERS = ("hit", "miss", "stored", "deleted", "not found", "leg lost", "out of memory", "clock fault", "other fault")
MIB = 1 << 20
BOUNDS = "0.0001 0.00025 0.0005 0.001 0.0025 0.005 0.01 0.025 0.05 0.1 0.25 0.5 1 2.5 5 +Inf".split()  # by docs/METRICS.md


class Told:
    """A service that tells its metrics at an address of their own."""

    def __init__(self, fleet, serve):
        self.address = fleet.keep(place_at("127.0.0.1")).address()
        self.service = serve("--metrics", self.address)

    def samples(self):
        """All that it tells now."""
        return scraped(self.address)


def told_node(fleet, *words, **how):
    return Told(fleet, lambda *more: fleet.node(*words, *more, **how))


def told_proxy(fleet, config, *words, **how):
    return Told(fleet, lambda *more: fleet.proxy(config, *words, *more, **how))


def told_both(fleet, **how):
    """A node, and a proxy before another node, which tell their metrics."""
    return told_node(fleet, **how), told_proxy(fleet, fleet.config([fleet.node()]), **how)


def counted(samples, name, *labels):
    """The samples of one family, at each value of a label."""
    return {label: samples[(name, label)] for label in labels}


@case
def a_node_counts_what_it_performs():
    with Fleet() as fleet:
        told = told_node(fleet, "--capacity", "2")
        client = told.service.client()
        client.ask(set_of("a", "1") + set_of("b", "2") + get_of("a", "x"), STORED * 2 + hits(("a", "1")))
        client.ask(set_of("c", "3") + get_of("b", "a"), STORED + hits(("a", "1")))
        client.ask(set_of("a", "4", noreply=True) + delete_of("c") + delete_of("c"), DELETED + NOT_FOUND)
        client.ask(set_of("d", "5", exptime=-1) + get_of("d"), STORED + MISS)
        samples = told.samples()
        check("items", (1, 2), (samples[("migctl_node_items",)], samples[("migctl_node_capacity_items",)]))
        check("gets", {"hit": 2, "miss": 3}, counted(samples, "migctl_node_gets_total", "hit", "miss"))
        check("sets", 5, samples[("migctl_node_sets_total",)])
        check("deletes", {"deleted": 1, "not found": 1}, counted(samples, "migctl_node_deletes_total", "deleted", "not found"))
        check("evictions", 1, samples[("migctl_node_evictions_total",)])
        check("its address", 1, samples[("migctl_node_info", told.service.address)])
        check("its loops", told.service.loops, samples[("migctl_node_loops",)])
        check("steps back", 0, samples[("migctl_clock_steps_back_total",)])
        now = time.time()
        check_true("its clock is this machine's", abs(samples[("migctl_clock_seconds",)] - now) <= 2)
        check_true("it began a while ago", 0 <= now - samples[("migctl_start_time_seconds",)] < 60)


@case
def a_set_in_a_full_node_evicts_one_item():
    """One that keeps nothing, and one of a key that is there, evict none."""
    with Fleet() as fleet:
        told = told_node(fleet, "--capacity", "3")
        client = told.service.client()
        for key in "abc":
            client.ask(set_of(key, "v"), STORED)
        for request, evicted in (
            (set_of("a", "w"), 0),
            (set_of("d", "v", exptime=-1), 0),
            (set_of("d", "v", exptime=2592001), 0),
            (set_of("d", "v", exptime=100), 1),
            (set_of("e", "v"), 2),
        ):
            client.ask(request, STORED)
            check(f"evictions after {request!r}", evicted, told.samples()[("migctl_node_evictions_total",)])


@case
def connections_are_counted():
    with Fleet() as fleet:
        for told in told_both(fleet):
            clients = told.service.clients(3)
            for client in clients:
                client.ask(get_of("k"), MISS)
            samples = told.samples()
            check("open and in all", (3, 3), (samples[("migctl_open_connections",)], samples[("migctl_connections_total",)]))
            clients[0].close()
            wait_for(told.address, ("migctl_open_connections",), 2)
            check("in all", 3, told.samples()[("migctl_connections_total",)])


@case
def a_proxy_counts_what_it_answers():
    """A get of a key twice is two legs and two hits; what asks for no answer counts; a leg to what doesn't run is lost, and takes no
    time, since it can't be sent. The room is that of both loops."""
    with Fleet() as fleet:
        node, dead = fleet.node(), fleet.keep(place_at("127.0.0.1")).address()
        told = told_proxy(fleet, fleet.config([node, dead], hash_name="sum"), "--loops", "2", "--room", "32")
        wait_for(told.address, ("migctl_proxy_link_up", "0", node.address), 2)
        client = told.service.client()
        here, lost = key_at(0, 2, "sum", "h"), key_at(1, 2, "sum", "l")
        client.ask(set_of(here, "v") + get_of(here, here), STORED + hits((here, "v"), (here, "v")))
        client.ask(delete_of(here) + delete_of(here), DELETED + NOT_FOUND)
        client.ask(get_of(here), MISS)
        client.ask(get_of(lost) + set_of(lost, "v") + get_of(here, lost), LOST * 3)
        client.ask(set_of(here, "v", noreply=True) + get_of(here), hits((here, "v")))
        samples = told.samples()
        wanted = {it: 0 for it in ANSWERS} | {"hit": 3, "miss": 1, "stored": 2, "deleted": 1, "not found": 1, "leg lost": 3}
        check("answers", wanted, counted(samples, "migctl_proxy_answers_total", *ANSWERS))
        check("requests", {"get": 5, "set": 3, "delete": 2}, requests_of(samples, "old-only"))
        check("under way", 0, samples[("migctl_proxy_requests_under_way",)])
        check("room", 64, samples[("migctl_proxy_room_requests",)])
        legs = {name[1:]: number for name, number in samples.items() if name[0] == "migctl_proxy_legs_total" and name[1] == "0"}
        wanted = {
            ("0", node.address, "carried"): 9,
            ("0", node.address, "lost"): 0,
            ("0", dead, "carried"): 0,
            ("0", dead, "lost"): 3,
        }
        check("legs", wanted, legs)
        check("each leg that went was timed", 9, samples[("migctl_proxy_leg_seconds_count",)])
        check("the last bound has all", 9, samples[("migctl_proxy_leg_seconds_bucket", "+Inf")])
        check("held back", 0, samples[("migctl_proxy_requests_held_back_total",)])


@case
def a_request_is_under_way_until_its_leg_is_back_and_timed():
    """A leg takes as long as its node: each bound below that counts none, each above counts it, and the sum is its time."""
    with Fleet() as fleet:
        slow = fleet.keep(SlowNode())
        told = told_proxy(fleet, fleet.config([slow.address]))
        client = told.service.client()
        check("under way", 0, told.samples()[("migctl_proxy_requests_under_way",)])
        begun = time.monotonic()
        client.send(get_of("k"))
        slow.wait_for(1)
        check("under way", 1, told.samples()[("migctl_proxy_requests_under_way",)])
        time.sleep(0.3)
        slow.answer_all({"k": "v"})
        client.expect(hits(("k", "v")))
        took = time.monotonic() - begun
        samples = told.samples()
        check("under way", 0, samples[("migctl_proxy_requests_under_way",)])
        check_true("the sum is the time", 0.3 <= samples[("migctl_proxy_leg_seconds_sum",)] <= took)
        bounds = [name[1] for name in samples if name[0] == "migctl_proxy_leg_seconds_bucket"]
        check("the bounds", BOUNDS, bounds)
        for bound in bounds:
            if not 0.3 <= float(bound) < took:
                wanted = int(float(bound) >= took)
                check(f"legs within {bound} s", wanted, samples[("migctl_proxy_leg_seconds_bucket", bound)])


@case
def a_proxy_tells_of_each_node_of_full_pools():
    """Two pools have the most names that they may have, which an unproved program would read for minutes."""
    with Fleet() as fleet:
        pools = [names(pool, 128 if UNPROVED else 1024) for pool in range(2)]
        told = told_proxy(fleet, fleet.config(*pools))
        samples = told.samples()
        legs = {name[1:]: number for name, number in samples.items() if name[0] == "migctl_proxy_legs_total"}
        wanted = [(f"{pool}", name, it) for pool in range(2) for name in pools[pool] for it in ("carried", "lost")]
        check("how many legs of each", [dict.fromkeys(wanted, 0)], [legs])
        for family in ("up", "breaks_total"):
            links = {name[1:]: number for name, number in samples.items() if name[0] == f"migctl_proxy_link_{family}"}
            wanted = [(f"{pool}", name) for pool in range(2) for name in pools[pool]]
            check(f"{family} of each", [dict.fromkeys(wanted, 0)], [links])


def names(pool, count, length=12):
    """So many names of nodes of so many bytes, which no request goes to."""
    return [f"{pool}.{number}".ljust(length, "n") for number in range(count)]


def requests_of(samples, phase):
    """The requests of each command in a phase."""
    return {command: samples[("migctl_proxy_requests_total", command, phase)] for command in ("get", "set", "delete")}


@case
def a_clock_that_goes_back_is_counted():
    """Each step once, whoever sees it first: a client's request or a scraper. It began when it began all the same."""
    with Fleet() as fleet:
        clock = fleet.clock(500)
        for told in told_both(fleet, clock=clock):
            clock.move(500)
            client = told.service.client()
            steps = 0
            began = told.samples()[("migctl_start_time_seconds",)]
            for ahead, back in ((500, 0), (900, 0), (-3600, 1), (-3500, 0), (-3600, 1), (500, 0)):
                clock.move(ahead)
                if ahead == -3500:
                    told.samples()
                client.ask(get_of("k"), MISS)
                client.ask(get_of("k"), MISS)
                steps += back
                samples = told.samples()
                check(f"steps back at {ahead}", steps, samples[("migctl_clock_steps_back_total",)])
                check_true("the clock that it tells", abs(samples[("migctl_clock_seconds",)] - time.time() - ahead) <= 2)
                check("when it began", began, samples[("migctl_start_time_seconds",)])


@case
def a_step_back_that_no_scraper_sees_is_counted():
    """A client alone sees it: the clock is past its old reading when it is scraped."""
    with Fleet() as fleet:
        clock = fleet.clock()
        for told in told_both(fleet, clock=clock):
            clock.move(0)
            client = told.service.client()
            client.ask(get_of("k"), MISS)
            for number in range(3):
                clock.move(1000 * number - 500)
                client.ask(get_of("k"), MISS)
                clock.move(1000 * number + 1000)
                client.ask(get_of("k"), MISS)
                check("steps back", number + 1, told.samples()[("migctl_clock_steps_back_total",)])


@case
def a_step_back_that_many_see_at_once_is_counted_once():
    """Eight clients ask at the same time behind each of fifty steps."""
    with Fleet() as fleet:
        clock = fleet.clock(3600)
        told = told_node(fleet, clock=clock)
        clients = told.service.clients(8)
        for _ in range(50):
            for ahead in (3600, 0):
                clock.move(ahead)
                for client in clients:
                    client.send(get_of("k"))
                for client in clients:
                    client.expect(MISS)
        check("steps back", 50, told.samples()[("migctl_clock_steps_back_total",)])


@case
def a_proxy_whose_clock_went_back_keeps_its_phase():
    with Fleet() as fleet:
        start = int(time.time())
        clock = fleet.clock()
        told = told_proxy(fleet, fleet.config([fleet.node()], new=[fleet.node()], start=start - 5, interval=1000), clock=clock)
        told.service.ask(get_of("k"), MISS)
        clock.move(-3600)
        samples = told.samples()
        check("its phase", 1, samples[("migctl_proxy_phase", "both-read-old")])
        check("the next bound", start - 5 + 1000, samples[("migctl_proxy_next_phase_seconds",)])


@case
def a_service_tells_its_version():
    """The one that `--version` says."""
    with Fleet() as fleet:
        _, output, _ = fleet.run("--version")
        for told in told_both(fleet):
            check("its version", 1, told.samples()[("migctl_build_info", output.decode().split()[-1])])


@case
def a_proxy_counts_each_request_that_it_holds_back():
    """With room for one, the requests of two other clients wait until its leg is back, and are answered then. Each counts once."""
    with Fleet() as fleet:
        slow = fleet.keep(SlowNode())
        told = told_proxy(fleet, fleet.config([slow.address]), "--loops", "1", "--room", "1")
        wait_for(told.address, ("migctl_proxy_link_up", "0", slow.address), 1)
        samples = told.samples()
        check("the loops and their room", (1, 1), (samples[("migctl_proxy_loops",)], samples[("migctl_proxy_room_requests",)]))
        check("issued none", {"get": 0, "set": 0, "delete": 0}, requests_of(samples, "old-only"))
        check_true("no last issue", ("migctl_proxy_last_issue_seconds",) not in samples)
        clients = told.service.clients(3)
        for number, client in enumerate(clients):
            client.send(get_of("k"))
            slow.wait_for(1)
            wait_for(told.address, ("migctl_proxy_requests_held_back_total",), number)
            check("under way", 1, told.samples()[("migctl_proxy_requests_under_way",)])
        for _ in clients:
            slow.wait_for(1)
            slow.answer_all({"k": "v"})
        for client in clients:
            client.expect(hits(("k", "v")))
        samples = told.samples()
        check("held back", 2, samples[("migctl_proxy_requests_held_back_total",)])
        check("answered", {"get": 3, "set": 0, "delete": 0}, requests_of(samples, "old-only"))


@case
def a_proxy_tells_how_its_links_stand():
    """Of two loops each has a connection to the node, loses it with the node, dials meanwhile, and has one again."""
    with Fleet() as fleet:
        node = fleet.node()
        told = told_proxy(fleet, fleet.config([node]), "--loops", "2")
        up, breaks, dials = ((f"migctl_proxy_link_{it}", "0", node.address) for it in ("up", "breaks_total", "dials_total"))
        wait_for(told.address, up, 2)
        samples = told.samples()
        check("loops, breaks and dials", (2, 0, 2), (samples[("migctl_proxy_loops",)], samples[breaks], samples[dials]))
        node.kill()
        wait_for(told.address, up, 0)
        check("breaks", 2, told.samples()[breaks])
        node.begin_again()
        wait_for(told.address, up, 2)
        samples = told.samples()
        check("breaks", 2, samples[breaks])
        check_true("it was dialled meanwhile", samples[dials] >= 4)
        told.service.ask(set_of("k", "v") + get_of("k"), STORED + hits(("k", "v")))


@case
def a_proxy_tells_whether_clients_wait():
    """With as many clients as it serves at once it takes no more until one has left."""
    with Fleet() as fleet:
        told = told_proxy(fleet, fleet.config([fleet.node()]), "--max-clients", "2")
        wait = ("migctl_proxy_clients_wait",)
        samples = told.samples()
        check("at first", (0, 2), (samples[wait], samples[("migctl_proxy_max_clients",)]))
        first, second = told.service.clients(2)
        for client in (first, second):
            client.ask(get_of("k"), MISS)
        wait_for(told.address, wait, 1)
        third = told.service.client()
        third.send(get_of("k"))
        check("what comes of the third", (b"", b"<nothing more>"), third.piece(1, 0.3))
        check("connections", 2, told.samples()[("migctl_open_connections",)])
        first.quit()
        third.expect(MISS)
        check("connections", 3, told.samples()[("migctl_connections_total",)])
        third.quit()
        wait_for(told.address, wait, 0)


@case
def a_proxy_tells_its_configuration_by_its_value():
    """Two files of one value have one digest, and another value has another."""
    with Fleet() as fleet:
        node, other = fleet.node(), fleet.node()
        first = fleet.config([node], new=[other])
        value = json.loads(pathlib.Path(first).read_bytes())
        spread = fleet.new_file(json.dumps(value, indent=3, sort_keys=True).encode() + b"\n")
        third = fleet.config([node], new=[other], start=5)
        wanted = hashlib.sha256(json.dumps(value, sort_keys=True, separators=(",", ":")).encode()).hexdigest()
        digests = []
        for config in (first, spread, third):
            samples = told_proxy(fleet, config).samples()
            digests += [name[1] for name in samples if name[0] == "migctl_proxy_config_info"]
        check("the first digest", wanted, digests[0])
        check("the second", wanted, digests[1])
        check_true("the third is another", digests[2] != wanted)


PHASES = ("old-only", "both-read-old", "both-read-new", "new-only")


@case(waits=True)
def a_proxy_tells_its_phase_and_counts_by_it():
    with Fleet() as fleet:
        old, new = fleet.node(), fleet.node()
        start, interval = int(time.time()) + 3, 3
        told = told_proxy(fleet, fleet.config([old], new=[new], start=start, interval=interval))
        client = told.service.client()
        bounds = [start + n * interval for n in range(3)]
        for number, phase in enumerate(PHASES):
            with moment(start - 2 + number * interval):
                client.ask(delete_of("k"), NOT_FOUND)
                samples = told.samples()
                check("its phase", {it: int(it == phase) for it in PHASES}, counted(samples, "migctl_proxy_phase", *PHASES))
                check("its hop", 0, samples[("migctl_proxy_hop",)])
                check("the next bound", bounds[number] if number < 3 else None, samples.get(("migctl_proxy_next_phase_seconds",)))
                for other, it in enumerate(PHASES):
                    check(f"deletes in {it}", int(other <= number), samples[("migctl_proxy_requests_total", "delete", it)])
                check("the last issue", start - 2 + number * interval, samples[("migctl_proxy_last_issue_seconds",)])
                for pool, node, legs in (("0", old, (1, 2, 3, 3)), ("1", new, (0, 1, 2, 3))):
                    wanted = {"carried": legs[number], "lost": 0}
                    got = {it: samples[("migctl_proxy_legs_total", pool, node.address, it)] for it in wanted}
                    check(f"legs of pool {pool}", wanted, got)


@case
def what_else_is_asked_is_refused():
    with Fleet() as fleet:
        told = told_node(fleet)
        wanted = asked(told.address)
        for method, path, status in (
            ("HEAD", "/metrics", 200),
            ("GET", "/", 404),
            ("POST", "/other", 404),
            ("POST", "/metrics", 405),
            ("DELETE", "/metrics", 405),
        ):
            got, fields, body = asked(told.address, method, path)
            check(f"{method} {path}", status, got)
            check_true("the connection is closed", fields["Connection"] == "close")
            if method == "HEAD":
                check("a HEAD has no body", b"", body)
                check_true("but its length", abs(int(fields["Content-Length"]) - len(wanted[2])) < 20)
            if status == 405:
                check("what is allowed", "GET, HEAD", fields["Allow"])
        for request, status in ((b"nonsense\r\n\r\n", 400), (b"GET /metrics HTTP/1.1\r\nX: " + b"a" * 8200, 431)):
            check(f"the answer to {request[:30]!r}", status, status_of(told.address, request))


def status_of(address, request):
    """The status of the answer to these bytes."""
    with Client(address) as client:
        client.send(request)
        return int(client.line().split()[1])


def expect_taken(client, piece):
    """The other side still takes ten such pieces: it doesn't reset the connection."""
    for _ in range(10):
        try:
            client.send(piece)
        except OSError as fault:
            raise Wrong("what is sent behind the answer", "it is taken", fault) from fault
        time.sleep(0.01)


@case
def a_post_with_a_body_is_answered():
    """What stands behind the head is read, so that no reset takes the answer along."""
    with Fleet() as fleet:
        told = told_node(fleet)
        for _ in range(20):
            with Client(told.address) as client:
                client.send(b"POST /metrics HTTP/1.1\r\nContent-Length: 21000\r\n\r\n" + b"x" * 20000)
                answer, end = client.all_that_comes()
                check("the answer to a POST, and its end", (b"HTTP/1.1 405", b"<end>"), (answer[:12], end))
                expect_taken(client, b"x" * 100)


@case(waits=True)
def slow_scrapers_hinder_nobody():
    """Of 150 that send a byte now and then each is ended or turned away, and meanwhile clients are served and, a while later,
    scrapers too."""
    with Fleet() as fleet:
        for told in told_both(fleet):
            slow = [fleet.keep(Client(told.address)) for _ in range(150)]
            began = time.monotonic()
            client = told.service.client()
            while time.monotonic() - began < 6.5:
                for it in slow:
                    try:
                        it.socket.send(b"G")
                    except OSError:
                        pass
                client.ask(set_of("k", "v") + get_of("k"), STORED + hits(("k", "v")))
                time.sleep(0.3)
            ended = 0
            for it in slow:
                it.socket.settimeout(0.1)
                try:
                    ended += it.socket.recv(100) == b""
                except ConnectionError:
                    ended += 1
                except TimeoutError:
                    pass
            check("slow scrapers that were ended", 150, ended)
            check_true("scrapers are served", told.samples()[("migctl_connections_total",)] == 1)


@case(waits=True)
def sixty_four_scrapers_are_served_at_once():
    """Beside 63 whose request isn't whole yet one more is answered. Beside 64 it is turned away, and once they are gone it is
    answered again."""
    with Fleet() as fleet:
        for told in told_both(fleet):
            with within(4):  # behind which the first of them is ended
                open_ones = [begun_scrape(fleet, told) for _ in range(63)]
                for it in open_ones:
                    wait_until_read(it.socket)
                told.samples()
                open_ones.append(kept_scrape(fleet, told))
                with Client(told.address) as more:
                    begun = time.monotonic()
                    more.expect_end("the end of the 65th scraper at once")
                    check_took("the 65th scraper was turned away", begun, 0, 2)
            for it in open_ones:
                it.close()
            wait_until_answered(told)


@case(waits=True)
def scrapers_for_whom_no_thread_can_be_made_are_turned_away():
    """Seventy, of a service that may take no memory for one more thread's stack: each is closed without an answer, clients are
    served meanwhile, and once there is memory scrapers are answered, since none kept a place."""
    with Fleet() as fleet:
        for told in told_both(fleet):
            client = told.service.client()
            client.ask(set_of("k", "v"), STORED)
            told.service.limit_memory(MIB)
            with within(4):  # behind which those are ended that a stack was left for
                open_ones = [begun_scrape(fleet, told) for _ in range(8)]
                for number in range(70):
                    with Client(told.address) as more:
                        more.expect_end(f"the end of scraper {number}")
            client.ask(set_of("k", f"{told.address}") + get_of("k"), STORED + hits(("k", told.address)))
            told.service.limit_memory(1024 * MIB)
            for it in open_ones:
                it.close()
            wait_until_answered(told)
            client.quit()


def begun_scrape(fleet, told):
    """A scraper that has sent the first half of its request."""
    client = fleet.keep(Client(told.address))
    client.send(b"GET /metrics HTTP/1.1\r\n")
    return client


def kept_scrape(fleet, told):
    """The same, of a scraper that has a place: who was answered gives its place back a moment later, and until then others may be
    turned away."""
    until = time.monotonic() + PATIENCE
    while True:
        client = begun_scrape(fleet, told)
        wait_until_read(client.socket)
        if client.piece(1, SETTLING) == (b"", b"<nothing more>"):
            return client
        if time.monotonic() > until:
            raise Wrong(f"a scraper of {told.address}", "a place", "none")


def wait_until_answered(told):
    """Waits until a scraper is answered, and isn't turned away."""
    until = time.monotonic() + 3
    while True:
        try:
            return told.samples()
        except OSError:
            if time.monotonic() > until:
                raise
            time.sleep(0.05)


@case(waits=True)
def a_scraper_may_take_three_seconds():
    """It has five for all."""
    with Fleet() as fleet:
        told = told_node(fleet)
        with within(4.5):
            client = begun_scrape(fleet, told)
            time.sleep(3)
            client.send(b"\r\n")
            check("the status of the answer", b"HTTP/1.1 200 OK\r\n", client.line())


@case(waits=True)
def a_scraper_that_reads_nothing_is_ended():
    """It asks for more than its connection has room for. After its five seconds the service ends, whose client is gone."""
    with Fleet() as fleet:
        told = told_proxy(fleet, fleet.config(*(names(pool, 128, 255) for pool in range(2))), clients=1)  # some 150,000 bytes
        scraper = fleet.keep(Client(told.address, little_room=True))
        begun = time.monotonic()
        scraper.send(b"GET /metrics HTTP/1.1\r\n\r\n")
        scraper.socket.recv(1, socket.MSG_PEEK)  # once the answer has begun
        told.service.client().quit()
        told.service.expect_served(1)
        check_took("the service ended", begun, 4.5, 15)


@case(waits=True)
def scrapers_are_answered_behind_a_want_of_open_files():
    """Who can't be accepted waits, and is answered once a file is free, as is who comes then. Clients are served throughout."""
    with Fleet() as fleet:
        for told in told_both(fleet):
            clients = told.service.clients(4)
            for client in clients:
                client.ask(set_of("k", "v"), STORED)
            told.service.limit_files(told.service.open_files())
            with Client(told.address) as scraper:
                scraper.send(b"GET /metrics HTTP/1.1\r\n\r\n")
                check("what comes within a second", (b"", b"<nothing more>"), scraper.piece(1, 1))
                clients[0].ask(get_of("k"), hits(("k", "v")))
                for client in clients[2:]:
                    client.quit()
                check("the status of the answer", b"HTTP/1.1 200 OK\r\n", scraper.line())
            clients[1].ask(get_of("k"), hits(("k", "v")))
            wait_until_answered(told)


@case(waits=True)
def a_service_with_metrics_is_idle_when_nobody_asks():
    """It takes a tenth of a processor at most to look for scrapers, and doesn't leave them waiting: of ten that come one behind
    another, all but the first just after it looked, one is answered soon."""
    with Fleet() as fleet:
        services = told_both(fleet)
        begun, before = time.monotonic(), [it.service.processor_seconds() for it in services]
        time.sleep(3)
        for told, spent in zip(services, before):
            spent = told.service.processor_seconds() - spent
            passed = time.monotonic() - begun
            check_true(f"that {spent:.2f} s of {passed:.2f} s are a tenth at most", spent <= passed / 10)
        for told in services:
            told.samples()
            waits = []
            for _ in range(9):
                begun = time.monotonic()
                told.samples()
                waits.append(time.monotonic() - begun)
            check_true(f"that one of {waits} is short", min(waits) < 0.25)


@case
def nonsense_at_the_metrics_hinders_nobody():
    """Altered heads, while clients are served."""
    with Fleet() as fleet:
        told = told_node(fleet)
        stop = threading.Event()
        failed = []

        def serve():
            try:
                with Client(told.service.address) as client:
                    while not stop.is_set():
                        client.ask(set_of("k", "v") + get_of("k"), STORED + hits(("k", "v")))
            except Exception as error:  # noqa: BLE001 (told below)
                failed.append(error)

        thread = threading.Thread(target=serve)
        thread.start()
        source = random.Random(7)
        try:
            for _ in range(300):
                head = bytearray(b"GET /metrics HTTP/1.1\r\nHost: here\r\n\r\n")
                for _ in range(source.randrange(4)):
                    head[source.randrange(len(head))] = source.randrange(256)
                with Client(told.address) as client:
                    client.send(bytes(head))
                    client.socket.shutdown(socket.SHUT_WR)
                    check_true("the answer is one of HTTP", client.line().startswith(b"HTTP/1.1 "))
        finally:
            stop.set()
            thread.join()
        check("clients that failed", [], failed)
        check("it tells still", 1, told.samples()[("migctl_node_info", told.service.address)])


@case
def a_service_with_metrics_ends_with_its_clients():
    with Fleet() as fleet:
        for told in told_both(fleet, clients=2):
            for _ in range(2):
                told.service.ask(get_of("k"), MISS)
            told.service.expect_served(2)


@case
def an_address_of_metrics_that_cannot_be_had_is_told():
    with Fleet() as fleet:
        taken = fleet.node().address
        listen = fleet.keep(place_at("127.0.0.1")).address()
        config = fleet.config([taken])
        for words in (("node",), ("proxy", "--config", config)):
            for address in (taken, "nowhere:1", ""):
                got = fleet.run(*words, "--listen", listen, "--metrics", address)
                check(f"{words[0]} with metrics at {address}", (1, b"", b"migctl: net %s\n" % address.encode()), got)
