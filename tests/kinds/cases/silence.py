"""How long clients and scrapers may be silent, and for how long a watch asks: each bound from both sides."""
import json
import os
import socket
import statistics
import time

from beside import MIB, in_threads, told_node, told_proxy, wait_for_links, wait_until
from client import MISS, STORED, Client, get_of, hits, set_of
from fake import FakeNode, FullQueue, SlowNode, Teller
from fleet import Fleet
from lateness import check_took, late_since, note_late
from peers import Silent
from running import case
from skipping import skip
from stuck import stopped_thread
from scraping import scraped
from telling import node_text, proxy_text, stats_text
from wanted import Wrong, check, check_true

IDLE = 2  # seconds that a client may be silent
LONGER = 4  # the same where it moves each half of them
BLOCK = bytes(range(97, 123)) * 400
PARTS = 3  # of a bound, after which who takes nothing is ended: the last few writes may find a little room each
FILLING = 2  # seconds until as many answers are sent to who reads nothing as there is room for
PORTION = 600_000  # bytes that who reads slowly reads at a time: so many that the system has room for more
SCRAPE = 5  # seconds that a scraper has for all
ASKING = 1  # seconds that a watch has for each service


def in_each_form(fleet, *words):
    """A node and a proxy which tell their metrics, and the two that tell none and run by threads. The proxies have all connections to
    nodes that they ever have."""
    nodes = fleet.nodes(2)
    config = fleet.config(nodes[:1], nodes[1:])
    on_loops = told_proxy(fleet, config, *words)
    wait_for_links(on_loops, *nodes)
    return [told_node(fleet, *words), on_loops, fleet.node(*words), fleet.proxy_by_threads(config, *words)]


def is_open(client):
    """Whether the other side hasn't ended the connection."""
    client.socket.settimeout(0.001)
    try:
        return client.socket.recv(1, socket.MSG_PEEK) != b""
    except TimeoutError:
        return True
    except OSError:
        return False


def part(bound):
    """After how many seconds of a bound it is looked at the latest whether a client moved something."""
    return min(bound / 8, 1)


def wait_for_end(client, begun, bound, what):
    """The other side ends the connection once a bound is over, as it is looked for."""
    wait_until(f"the end of {what}", lambda: not is_open(client), bound + 15)
    check_took(f"the end of {what}", begun, bound, bound + part(bound))


def look_at_silence(service, bound):
    """A client that is silent from its first byte on, behind an answer, or within a request is ended after the bound."""
    def look(text, answer, what):
        begun = time.monotonic()
        client = service.client()
        if text:
            begun = time.monotonic()
            client.ask(text, answer)
        wait_for_end(client, begun, bound, f"{what} at {service.name()}")

    in_threads(
        lambda: look(b"", b"", "one that asks nothing"),
        lambda: look(get_of("k"), MISS, "one that was answered"),
        lambda: look(b"set silent 0 0 30\r\nten bytes.", b"", "one that stops within a set"),
    )


@case(waits=True)
def a_silent_client_is_ended_after_its_time_and_not_before():
    """Of two seconds and of eight, of services on loops and by threads."""
    with Fleet() as fleet:
        in_threads(*(
            lambda it=it, bound=bound: look_at_silence(it, bound)
            for bound in (IDLE, 8)
            for it in in_each_form(fleet, "--idle-timeout", str(bound))
        ))


def send_on(service):
    """Sends a byte of a set each half of the bound, and asks for no answer for as long: it is served all the while."""
    slow, quiet = service.clients(2)
    text = set_of("slow", "v")
    for number in range(6):
        slow.send(text[number : number + 1])
        quiet.send(set_of("quiet", f"{number}", noreply=True))
        time.sleep(LONGER / 2)
        check_true(f"who only sends to {service.name()} is served after {number + 1} halves", is_open(slow) and is_open(quiet))
    slow.send(text[6:])
    slow.expect(STORED)
    quiet.ask(get_of("quiet"), hits(("quiet", "5")))


def read_on(service):
    """Asks for much, and then sends nothing and reads a part of it each half of the bound. Once it reads nothing it is ended."""
    client = service.client(little_room=True)
    client.ask(set_of("k", BLOCK), STORED)
    before = service.open_files()
    client.send(get_of("k") * (5 * MIB // len(BLOCK)))
    got = 0
    for number in range(6):
        time.sleep(LONGER / 2)
        check(f"open files of {service.name()} while it is read", before, service.open_files())
        want = PORTION
        begun = time.monotonic()
        while want > 0:
            came, end = client.piece(want, 25)
            if end:
                raise Wrong(f"answers of {service.name()} to who reads slowly", "bytes", (got, end))
            got, want = got + len(came), want - len(came)
    read = time.monotonic()
    wait_until(f"the end of who reads nothing at {service.name()}", lambda: service.open_files() < before, LONGER + 15)
    # the system tells a service of room once there is much: what it saw last of its client may be the portion before
    check_took(f"the end of who reads nothing at {service.name()}", begun, LONGER / 2, read - begun + LONGER + PARTS * part(LONGER))


@case(waits=True)
def traffic_in_one_direction_alone_is_no_silence():
    """For three times the bound a client only sends, or only reads: of services on loops and by threads."""
    with Fleet() as fleet:
        words = ("--idle-timeout", str(LONGER))
        in_threads(
            *(lambda it=it: send_on(it) for it in in_each_form(fleet, *words)),
            *(lambda it=it: read_on(it) for it in in_each_form(fleet, *words)),
        )


def read_nothing(service, bound):
    """A client asks for much and reads nothing: it is ended after the bound."""
    client = service.client(little_room=True)
    client.ask(set_of("k", BLOCK), STORED)
    before = service.open_files()
    begun = time.monotonic()
    client.send(get_of("k") * (5 * MIB // len(BLOCK)))
    what = f"the end of who reads nothing at {service.name()}"
    wait_until(what, lambda: service.open_files() < before, 4 * bound + 15)
    check_took(what, begun, bound, bound + FILLING + PARTS * part(bound))


@case(waits=True)
def who_reads_nothing_is_ended_after_its_time_and_not_before():
    """Of two seconds and of eight, of services on loops and by threads."""
    with Fleet() as fleet:
        in_threads(*(
            lambda it=it, bound=bound: read_nothing(it, bound)
            for bound in (IDLE, 8)
            for it in in_each_form(fleet, "--idle-timeout", str(bound))
        ))


@case(waits=True)
def who_waits_for_an_answer_is_not_silent():
    """For twice the bound; the time begins anew with the answer."""
    with Fleet() as fleet:
        slow = fleet.keep(SlowNode())
        proxy = told_proxy(fleet, fleet.config([slow.address]), "--idle-timeout", str(IDLE), "--leg-timeout", "0", "--loops", "1")
        wait_for_links(proxy, slow)
        client = proxy.client()
        client.send(get_of("k"))
        slow.wait_for(1)
        time.sleep(2 * IDLE)
        check_true("who waits is served", is_open(client))
        slow.answer_all({"k": "v"})
        begun = time.monotonic()
        client.expect(hits(("k", "v")))
        wait_for_end(client, begun, IDLE, "one that was answered late")


def small_services(fleet):
    """A node, and a proxy before another node, which tell their metrics."""
    return [told_node(fleet), told_proxy(fleet, fleet.config(fleet.nodes(1)))]


@case(waits=True)
def a_scraper_has_five_seconds_for_all():
    """One that is silent, one that sends a byte each half of that, and one that begins its request late are ended then; one whose
    request is whole after four seconds is answered."""
    with Fleet() as fleet:
        def ends(service, pieces, what):
            begun = time.monotonic()
            with Client(service.metrics) as client:
                for number, piece in enumerate(pieces):
                    if number:
                        time.sleep(SCRAPE / 2 - 0.1)
                    client.send(piece)
                wait_until(f"the end of {what}", lambda: not is_open(client), SCRAPE + 10)
                check_took(f"the end of {what} at {service.name()}", begun, SCRAPE, 1.3 * SCRAPE)

        def answers(service):
            with Client(service.metrics) as client:
                begun = time.monotonic()
                for byte in b"GET /met":
                    client.send(bytes([byte]))
                    time.sleep(0.5)
                client.send(b"rics HTTP/1.1\r\n\r\n")
                late_since(begun)
                check("the status of the answer after four seconds", b"HTTP/1.1 200 OK\r\n", client.line())

        services = small_services(fleet)
        in_threads(*(
            job
            for it in services
            for job in (
                lambda it=it: ends(it, [], "a silent scraper"),
                lambda it=it: ends(it, [b"G", b"E", b"T"], "a scraper that sends a byte each half of its time"),
                lambda it=it: ends(it, [b"", b"GET /metrics HTTP/1.1\r\n"], "a scraper that begins late"),
                lambda it=it: answers(it),
            )
        ))


@case(waits=True)
def a_scraper_that_reads_slowly_has_five_seconds_too():
    """It asks for more than there is room for, and reads nothing of it, or a thousand bytes half a second before its time is over:
    its connection is gone then."""
    with Fleet() as fleet:
        pools = [[f"{pool}.{number}".ljust(255, "n") for number in range(128)] for pool in range(2)]  # some 150,000 bytes of metrics
        for_nothing, for_some = (told_proxy(fleet, fleet.config(*pools)) for _ in range(2))

        def look(proxy, count):
            before = proxy.open_files()
            scraper = fleet.keep(Client(proxy.metrics, little_room=True))
            begun = time.monotonic()
            scraper.send(b"GET /metrics HTTP/1.1\r\n\r\n")
            scraper.socket.recv(1, socket.MSG_PEEK)  # once the answer has begun
            if count:
                time.sleep(SCRAPE - 0.5)
                scraper.piece(count, 5)
            wait_until("the end of a scraper that reads slowly", lambda: proxy.open_files() == before, SCRAPE + 10)
            check_took("the end of a scraper that reads slowly", begun, SCRAPE, 1.1 * SCRAPE)

        in_threads(lambda: look(for_nothing, 0), lambda: look(for_some, 1000))


def look_beside(proxy):
    """Whether it is a loop that hangs, and so is left out of what is told: after a second."""
    begun = time.monotonic()
    with Client(proxy.metrics) as client:
        client.send(b"GET /metrics HTTP/1.1\r\n\r\n")
        came, end = client.piece(100, 5)
        took = time.monotonic()
        if end:
            return False  # it is the thread that takes scrapers
        rest, _ = client.all_that_comes()
    if b"\nmigctl_proxy_loops 1\n" in came + rest:
        check_took("the answer beside a loop that hangs", begun, 1, ended=took)
        return True
    check_true("both loops answer", b"\nmigctl_proxy_loops 2\n" in came + rest)
    return False


@case(waits=True)
def a_loop_that_hangs_costs_a_scraper_a_second():
    """It is left out then, and counts again once it goes on. A thread of each loop is stopped in turn."""
    with Fleet() as fleet:
        proxy = told_proxy(fleet, fleet.config(fleet.nodes(1)), "--loops", "2")
        loops = ("migctl_proxy_loops",)
        check("loops that answer", 2, scraped(proxy.metrics)[loops])
        hung = 0
        threads = sorted(int(it) for it in os.listdir(f"/proc/{proxy.child.pid}/task"))
        for thread in threads[1:]:
            try:
                with stopped_thread(thread):
                    hung += look_beside(proxy)
            except ProcessLookupError:
                pass  # it was that of a scraper
            except PermissionError as why:
                skip("a_loop_that_hangs_costs_a_scraper_a_second", f"no thread can be stopped: {why}")
                return
        check("loops that were left out, each in turn", 2, hung)
        wait_until("loops that answer again", lambda: scraped(proxy.metrics)[loops] == 2)


class DrippingTeller(FakeNode):
    """A service that answers whatever it is asked byte by byte, with a pause before each but for the last ones: in so many pieces."""

    def __init__(self, text_of, pieces, pause, is_http):
        self.text_of, self.pieces, self.pause, self.is_http = text_of, pieces, pause, is_http
        super().__init__(self.drip)

    def drip(self, link):
        """Answers one request."""
        if not link.request():
            return
        text = self.text_of()
        if self.is_http:
            while link.request().strip():
                pass
            text = b"HTTP/1.1 200 OK\r\nContent-Length: %d\r\n\r\n" % len(text) + text
        for number in range(self.pieces - 1):
            link.send(text[number : number + 1])
            time.sleep(self.pause)
        link.send(text[self.pieces - 1 :])


def look_once(fleet, config, *addresses):
    """What one look shows, and how long it took."""
    begun = time.monotonic()
    _, output, _ = fleet.run("watch", "--config", config, "--once", "--json", *addresses)
    return json.loads(output), time.monotonic() - begun


def check_took_a_second(took, begun):
    """A look at one service that is too slow took the time that it has, beside what a program takes to begin and to end."""
    check_took("the end of a look at who is too slow", begun, ASKING, 1.8 * ASKING, begun + took)


@case(waits=True)
def a_watch_asks_a_service_for_a_second_in_all():
    """For metrics: one that is silent, one that sends a byte each half second and one that accepts nobody tell nothing, and cost a
    second each; one that is done after 0.8 seconds, in ten pieces, is heard."""
    with Fleet() as fleet:
        config = fleet.config([told_node(fleet)], start=int(time.time()) + 100_000)
        slow = [
            fleet.keep(Silent()),
            fleet.keep(DrippingTeller(lambda: proxy_text("old-only"), 100, 0.5, True)),
            fleet.keep(FullQueue()),
        ]
        in_time = fleet.keep(DrippingTeller(lambda: proxy_text("old-only"), 9, 0.1, True))

        def look(address):
            begun = time.monotonic()
            shown, took = look_once(fleet, config, address)
            check("whether who is too slow is reached", [False], [it["reached"] for it in shown["proxies"]])
            check_took_a_second(took, begun)

        def hear():
            begun = time.monotonic()
            shown, _ = look_once(fleet, config, in_time.address)
            late_since(begun)
            if late_since(begun) < 0.03:
                check("whether who is done in time is reached", [True], [it["reached"] for it in shown["proxies"]])

        in_threads(*(lambda it=it: look(it.address) for it in slow), hear)


@case(waits=True)
def a_watch_asks_a_memcached_for_a_second_in_all():
    """For stats, of the same kinds."""
    with Fleet() as fleet:
        slow = [fleet.keep(Silent()), fleet.keep(DrippingTeller(lambda: stats_text(7, 8), 100, 0.5, False)), fleet.keep(FullQueue())]
        in_time = fleet.keep(DrippingTeller(lambda: stats_text(7, 8), 9, 0.1, False))
        proxy = fleet.keep(Teller(lambda _: proxy_text("old-only")))

        def look(node, is_heard):
            config = fleet.config([node.address], [told_node(fleet)], start=int(time.time()) + 100_000)
            begun = time.monotonic()
            shown, took = look_once(fleet, config, proxy.address)
            late = late_since(begun)
            if is_heard and late >= 0.03:
                return
            wanted = (7, 8) if is_heard else (None, None)
            check("items and hits of a memcached", wanted, (shown["nodes"][0]["items"], shown["nodes"][0]["hits"]))
            if not is_heard:
                check_took_a_second(took, begun)

        in_threads(*(lambda it=it: look(it, False) for it in slow), lambda: look(in_time, True))


@case(waits=True)
def looks_begin_a_second_apart():
    """Also where each takes 0.7 seconds of that; one that takes longer is followed at once, and the next pause isn't shorter for
    it."""
    def look(delays, wanted):
        with Fleet() as fleet:
            journal = []
            phases = ["old-only"] * (len(delays) - 1) + ["new-only"]
            proxy = fleet.keep(Teller(
                lambda number: proxy_text(phases[min(number, len(phases) - 1)]),
                lambda number: delays[min(number, len(delays) - 1)], journal=journal,
            ))
            config = fleet.config([told_node(fleet)], start=int(time.time()) + 100_000)
            begun = time.monotonic()
            fleet.run("watch", "--config", config, "--json", proxy.address)
            late = late_since(begun)
            note_late(begun)
            check("how often it was asked", len(delays), len(journal))
            # The first look asks it twice, and what it asks beside takes no time to speak of: so a look begins as it is asked.
            moments = [moment for _, moment in journal][1:]
            pauses = [after - before for before, after in zip(moments[1:], moments[2:])]
            for pause, least in zip(pauses, wanted):
                if not least - 0.06 - late <= pause <= least + 0.3 + 1.5 * late:
                    raise Wrong("seconds from one look to the next", wanted, [round(it, 2) for it in pauses])
            check_true(f"the middle one of {pauses}", abs(statistics.median(pauses) - statistics.median(wanted)) < 0.2 + late)

    in_threads(
        lambda: look([0] * 8, [1] * 5),
        lambda: look([0.0, 0.0] + [0.7] * 6, [1] * 5),
        # the second of these looks takes no second, since its proxy is asked for no longer
        lambda: look([0, 0, 0, 0, 0, 0], [1] * 3),
    )
