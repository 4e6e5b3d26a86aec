"""Counters on the border of how many clients may be served, and before there is a link."""
import time

from beside import told_node, told_proxy, wait_for_links, wait_until
from cases.saying import Said
from client import LOST, MISS, delete_of, get_of, set_of
from fake import FullQueue
from fleet import Fleet
from lateness import check_took
from placing import key_at
from ports import place_at
from running import case
from scraping import scraped, wait_for
from wanted import check, check_true

MOST = 3
WAIT = ("migctl_proxy_clients_wait",)
OPEN = ("migctl_open_connections",)
CAME = ("migctl_connections_total",)


def served_clients(proxy, count):
    """So many clients that were answered."""
    clients = proxy.clients(count)
    for it in clients:
        it.ask(get_of("k"), MISS)
    return clients


@case(waits=True)
def clients_wait_while_as_many_are_served_as_may_be():
    """One fewer than may be: none waits. As many: further ones wait, which is told and said, and are served one by one as others leave.
    They aren't counted before that."""
    with Fleet() as fleet:
        config = fleet.config([told_node(fleet)])
        metrics = fleet.keep(place_at("127.0.0.1")).address()
        words = ("--forever", "--metrics", metrics, "--loops", "2", "--max-clients", str(MOST))
        proxy = fleet.serve("proxy", "--config", str(config), *words, left_open=False)
        said = Said(proxy)
        wait_until("links", lambda: scraped(metrics)[("migctl_proxy_link_up", "0", *nodes_in(metrics))] == 2)

        def are_told(waits, open_ones, came):
            wait_for(metrics, OPEN, open_ones)
            wait_for(metrics, WAIT, waits)
            check("connections that came", came, scraped(metrics)[CAME])

        def lines():
            return sum(text.startswith(f"new clients wait: {MOST} are served, as many as may be") for _, text in said.lines())

        clients = served_clients(proxy, MOST - 1)
        are_told(0, MOST - 1, MOST - 1)
        time.sleep(0.3)
        check("lines of clients that wait, before one does", 0, lines())
        clients += served_clients(proxy, 1)
        are_told(1, MOST, MOST)
        wait_until("a line of clients that wait", lambda: lines() == 1)
        waiting = proxy.clients(2)
        for it in waiting:
            it.send(get_of("k"))
        for number, it in enumerate(waiting):
            check("what comes to one that waits", (b"", b"<nothing more>"), it.piece(1, 0.4))
            are_told(1, MOST, MOST + number)
            time.sleep(1.1)  # since the last line
            before = lines()
            clients.pop(0).quit()
            it.expect(MISS)
            clients.append(it)
            are_told(1, MOST, MOST + number + 1)
            wait_until("one more line of clients that wait", lambda before=before: lines() > before)
        for it in clients:
            it.quit()
        are_told(0, 0, MOST + 2)


def nodes_in(metrics):
    """The names of the nodes of the first pool."""
    return [name[2] for name in scraped(metrics) if name[:2] == ("migctl_proxy_link_up", "0")]


LEG = 20  # seconds that a leg may take


@case(waits=True)
def legs_before_the_first_link_is_up_are_lost_at_once():
    """At a node that accepts nobody, and so has been dialled for long, and at one that comes later: a client is told so at once, and
    each request and leg is counted, though no leg was timed. A node whose link is up has its legs. Then the other one comes."""
    with Fleet() as fleet:
        late = told_node(fleet)
        late.kill()
        full, node = fleet.keep(FullQueue()), told_node(fleet)
        names = [full.address, late.address, node.address]
        keys = [key_at(number, 3) for number in range(3)]
        proxy = told_proxy(fleet, fleet.config(names), "--loops", "1", "--leg-timeout", str(1000 * LEG))
        wait_for_links(proxy, node)
        client = proxy.client()
        begun = time.monotonic()
        for key in keys[:2]:
            client.ask(get_of(key) + set_of(key, "v") + delete_of(key), LOST * 3)
        client.ask(set_of(keys[0], "v", noreply=True) + get_of(keys[2]), MISS)
        client.ask(get_of(*keys), LOST)
        check_took("answers without a link", begun, 0, 0.2)
        wait_for(proxy.metrics, ("migctl_proxy_legs_total", "0", node.address, "carried"), 2)
        samples = scraped(proxy.metrics)
        wanted = {
            ("migctl_proxy_requests_total", "get", "old-only"): 4,
            ("migctl_proxy_requests_total", "set", "old-only"): 3,
            ("migctl_proxy_requests_total", "delete", "old-only"): 2,
            ("migctl_proxy_answers_total", "leg lost"): 8,
            ("migctl_proxy_answers_total", "miss"): 1,
            ("migctl_proxy_leg_seconds_count",): 2,
            ("migctl_proxy_requests_under_way",): 0,
        }
        for name, lost, up in zip(names, (5, 4, 0), (0, 0, 1)):
            wanted |= {
                ("migctl_proxy_legs_total", "0", name, "lost"): lost,
                ("migctl_proxy_link_up", "0", name): up,
                ("migctl_proxy_link_breaks_total", "0", name): 0,
            }
        check("what is told of it", wanted, {name: samples[name] for name in wanted})
        check("dials of the node that accepts nobody", 1, samples[("migctl_proxy_link_dials_total", "0", full.address)])
        check_true("dials of the node that isn't there", samples[("migctl_proxy_link_dials_total", "0", late.address)] >= 1)
        late.begin_again()
        client.ask_until(get_of(keys[1]), MISS, LOST)
        samples = scraped(proxy.metrics)
        check("its link", (1, 0), (samples[("migctl_proxy_link_up", "0", late.address)],
                                   samples[("migctl_proxy_link_breaks_total", "0", late.address)]))
