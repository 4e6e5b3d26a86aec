"""Services, of nodes and of proxies alike: where they listen, whom they serve, and how they end."""
import socket
import time

from client import DELETED, ERROR, MISS, STORED, Client, delete_of, get_of, hits, set_of
from fleet import Fleet
from ports import place_at
from reading import wait_until_read
from running import case
from wanted import check, check_true

NO_ADDRESSES = (
    "127.0.0.1",
    "127.0.0.1:",
    ":11211",
    "127.0.0.1:65536",
    "127.0.0.1:+80",
    "127.0.0.1:11211:1",
    "[::1]:11211",
    "::1:11211",
    "LOCALHOST:0",
    "localhost.:0",
    "127.1:0",
    "127.0.0.01:0",
    "0177.0.0.1:0",
    "256.0.0.1:0",
    "127.0.0.1:00",
    "127.0.0.1:011211",
    "",
)


def both(fleet, *words, **how):
    """A node with these words, and a proxy with them before another node."""
    return fleet.node(*words, **how), fleet.proxy(fleet.config([fleet.node()]), *words, **how)


def is_refused(address):
    """Whether nothing takes a connection there."""
    try:
        Client(address).close()
    except ConnectionRefusedError:
        return True
    return False


@case
def a_service_listens_at_its_address_alone():
    """Other hosts of the same machine aren't served, whichever of them was asked for."""
    with Fleet() as fleet:
        hosts = ("127.0.0.1", "127.0.0.2")
        for host, other in (hosts, hosts[::-1]):
            for service in both(fleet, hosts=hosts, host=host):
                service.ask(set_of("k", "v"), STORED)
                elsewhere = service.place.address(other)
                check_true(f"nothing listens at {elsewhere} beside {service.name()}", is_refused(elsewhere))


@case
def seventy_clients_are_served_and_not_one_more():
    """A service ends once as many connections as it was told have ended, and takes none behind them."""
    with Fleet() as fleet:
        for service in both(fleet, clients=70):
            last = None
            for number in range(70):
                last = service.client()
                last.ask(set_of("k", f"{number}"), STORED)
                if number < 69:
                    last.quit()
            check_true(f"{service.name()} runs while one client is there", service.child.poll() is None)
            more = service.client()
            more.send(get_of("k"))
            last.ask(get_of("k"), hits(("k", "69")))
            last.quit()
            service.expect_served(70)
            more.expect_end("the end of a connection behind the last client's")


@case
def eleven_hundred_connections_are_served_one_after_another():
    """Also with 40 open files: what a connection held is free once it has ended."""
    with Fleet() as fleet:
        for service, connections in zip(both(fleet), (1100, 100)):
            service.limit_files(40)
            for number in range(connections):
                with service.client() as client:
                    client.ask(get_of("k"), hits(("k", f"{number - 1}")) if number else MISS)
                    client.ask(set_of("k", f"{number}"), STORED)
                    client.quit()


NO_CLOCK = b"SERVER_ERROR clock fault\r\n"


@case
def who_asks_while_the_clock_gives_no_reading_is_told_so():
    """Each request is, unless it wants no answer, and nothing is done for it; the connection goes on, and so does the service. What
    isn't whole by then is asked once the clock reads again."""
    with Fleet() as fleet:
        clock = fleet.clock()
        for service in both(fleet, clock=clock):
            clock.move(0)
            client, half, last = service.clients(3)
            client.ask(set_of("k", "v"), STORED)
            half.send(set_of("half", "0123456789")[:20])
            wait_until_read(half.socket)
            clock.fail()
            refused = get_of("k", "l") + set_of("k", "w") + delete_of("k") + get_of("k")
            silent = set_of("k", "x", noreply=True) + delete_of("k", noreply=True)
            client.ask(silent + refused + b"hello\r\n" + silent + delete_of("k"), NO_CLOCK * 4 + ERROR + NO_CLOCK)
            last.send(get_of("k"))
            last.stop_sending()
            last.expect(NO_CLOCK)
            last.expect_end()
            clock.move(0)
            half.ask(set_of("half", "0123456789")[20:] + get_of("half"), STORED + hits(("half", "0123456789")))
            client.ask(get_of("k"), hits(("k", "v")))


@case
def clients_do_not_wait_for_one_another():
    """Clients that are connected at once are all served at once, in any order."""
    with Fleet() as fleet:
        for service in both(fleet):
            clients = service.clients(8)
            for number in (7, 0, 6, 1, 5, 2, 4, 3):
                clients[number].ask(set_of(f"k{number}", "v"), STORED)
            for number, client in enumerate(clients):
                client.ask(get_of("k7", f"k{number}"), hits(("k7", "v"), (f"k{number}", "v")))


@case
def sixty_four_clients_ask_at_once():
    """Each gets its own answers: here all send before any of them reads."""
    with Fleet() as fleet:
        for service in both(fleet):
            clients, asked = service.clients(64), []
            for number, client in enumerate(clients):
                key, value = f"k{number}", f"{number} " * 50
                client.send(set_of(key, value), get_of(key, "absent"), delete_of(key), get_of(key))
                asked.append(STORED + hits((key, value)) + DELETED + MISS)
            for client, answers in zip(clients, asked):
                client.expect(answers)


@case
def a_request_cut_anywhere_is_read_and_answered_as_a_whole():
    """Requests come in pieces of any size: here in two, cut at each place, and byte by byte."""
    text = set_of("k", "a\r\n") + b"stats\r\n" + get_of("k", "l") + delete_of("k")
    answer = STORED + ERROR + hits(("k", "a\r\n")) + DELETED
    with Fleet() as fleet:
        for service in both(fleet):
            client = service.client()
            for cut in range(1, len(text)):
                client.send(text[:cut])
                wait_until_read(client.socket)
                client.send(text[cut:])
                client.expect(answer, what=f"the answers to requests that were cut at {cut}")
            for place in range(len(text)):
                client.send(text[place : place + 1])
                wait_until_read(client.socket)
            client.expect(answer, what="the answers to requests that came byte by byte")


@case
def requests_in_one_write_are_all_answered_in_order():
    """Also behind the end of the client's own sending, which ends the connection once all is answered."""
    with Fleet() as fleet:
        for service in both(fleet):
            client = service.client()
            asked, answers = [], []
            for number in range(100):
                asked += [set_of("k", f"{number}"), get_of("k"), delete_of("k"), get_of("k")]
                answers += [STORED, hits(("k", f"{number}")), DELETED, MISS]
            client.send(*asked)
            client.stop_sending()
            client.expect(b"".join(answers))
            client.expect_end()


@case(waits=True)
def a_client_may_read_late():
    """A service waits for who reads late, for as long as that takes, and serves others meanwhile."""
    with Fleet() as fleet:
        block = bytes(range(256)) * 32
        for service in both(fleet):
            client, other = service.client(little_room=True), service.client()
            client.ask(set_of("k", block), STORED)
            client.send(get_of("k") * 20)
            for number in range(4):
                time.sleep(0.3)
                other.ask(set_of("l", f"{number}") + get_of("l"), STORED + hits(("l", f"{number}")))
            client.expect(hits(("k", block)) * 20)


@case
def a_service_counts_the_clients_that_ended_without_a_fault():
    """A quit, an end, an end within a request and a refusal are none; a connection that was reset is one."""
    with Fleet() as fleet:
        for service in both(fleet, clients=6):
            quits, ends, cut, refused, reset, early = service.clients(6)
            for client in (quits, ends, cut, refused, reset, early):
                client.ask(get_of("k"), MISS)
            quits.quit()
            ends.stop_sending()
            ends.expect_end()
            cut.send(b"set k 0 0 5\r\nab")
            cut.stop_sending()
            cut.expect_end()
            refused.ask(b"delete k 5\r\n", b"CLIENT_ERROR wrong words\r\n")
            refused.expect_end()
            early.close()
            reset.reset()
            service.expect_served(5, status=1)


@case
def a_client_that_breaks_off_while_it_is_answered_harms_no_other():
    """Its answers can't be written any more, which is a fault of that client alone. What it cut short isn't stored."""
    with Fleet() as fleet:
        block = bytes(range(256)) * 32
        for service in both(fleet, clients=3):
            greedy, other, cutting = service.client(little_room=True), *service.clients(2)
            greedy.ask(set_of("k", block), STORED)
            greedy.send(get_of("k") * 40)
            greedy.expect(hits(("k", block)))
            greedy.reset()
            cutting.send(b"set k 0 0 5\r\nab")
            wait_until_read(cutting.socket)
            cutting.close()
            other.ask(get_of("k"), hits(("k", block)))
            other.quit()
            service.expect_served(2, status=1)


@case
def a_service_of_no_clients_ends_at_once():
    """At 0 clients none is served, and all of them ended without a fault."""
    with Fleet() as fleet:
        config = fleet.config(["127.0.0.1:1"])
        for words in (("node",), ("proxy", "--config", config)):
            address = fleet.keep(place_at("127.0.0.1")).address()
            ended = fleet.run(*words, "--listen", address, "--clients", "0")
            check(f"{words[0]} --clients 0", (0, b"served 0\n", b""), ended)


@case
def one_client_is_served_where_the_words_do_not_say_how_many():
    """The service ends with its first client."""
    with Fleet() as fleet:
        node = fleet.serve("node")
        node.client().quit()
        node.expect_served(1)
        proxy = fleet.serve("proxy", "--config", str(fleet.config(["127.0.0.1:1"])))
        proxy.client().quit()
        proxy.expect_served(1)


@case
def a_service_without_an_end_goes_on_after_its_first_clients():
    """With --forever it serves one client after another, and those at once, and says nothing of whom it served, and with --quiet
    nothing at all."""
    with Fleet() as fleet:
        node = fleet.serve("node", "--forever", "--quiet")
        proxy = fleet.serve("proxy", "--config", str(fleet.config([fleet.node()])), "--forever", "--quiet")
        for service in (node, proxy):
            for number in range(3):
                client = service.client()
                client.ask(set_of("k", f"{number}"), STORED)
                client.quit()
            for client in service.clients(3):
                client.ask(get_of("k"), hits(("k", "2")))
            check(f"what {service.name()} printed so far", (b"", b""), service.printed())


@case
def a_connection_ends_once_its_turns_are_spent():
    """So many reads are made of a connection, each of all that has come; where one more is needed that is a fault."""
    with Fleet() as fleet:
        for service in both(fleet, "--turns", "3", clients=2):
            spent, within = service.clients(2)
            for number in range(3):
                spent.ask(set_of("k", "v" * 1000) + get_of("k"), STORED + hits(("k", "v" * 1000)))
            spent.expect_end("the end behind the third read")
            within.ask(get_of("k"), hits(("k", "v" * 1000)))
            within.quit()
            service.expect_served(1, status=1)
        for service in both(fleet, "--turns", "0", clients=1):
            service.client().expect_end("the end where no read is made")
            service.expect_served(0, status=1)


@case
def twelve_hundred_reads_of_a_connection_are_made():
    """The usual turns are 1,000,000: a connection may go on for long."""
    with Fleet() as fleet:
        for service in both(fleet):
            client = service.client()
            for number in range(600):
                client.ask(set_of("k", f"{number}"), STORED)
                client.ask(get_of("k"), hits(("k", f"{number}")))


@case
def an_address_that_is_taken_is_a_fault():
    """Nobody is served then, at this address or at another one. The socket is looked at last of all."""
    with Fleet() as fleet:
        taken = fleet.keep(socket.create_server(("127.0.0.1", 0)))
        address = "127.0.0.1:%d" % taken.getsockname()[1]
        fault = (1, b"", b"migctl: net %s\n" % address.encode())
        config = fleet.config(["127.0.0.1:1"])
        listen = ("--listen", address, "--clients")
        for clients in ("0", "1"):
            check("a node", fault, fleet.run("node", *listen, clients))
            check("a proxy", fault, fleet.run("proxy", "--config", config, *listen, clients))
        refused = fleet.run("node", "--capacity", "0", *listen, "1")
        check("a node of capacity 0", (1, b"", b"migctl: node 1 ZeroCapacity\n"), refused)
        refused = fleet.run("proxy", "--config", "/absent", *listen, "1")
        check("a proxy without configuration", (1, b"", b"migctl: file /absent\n"), refused)


@case
def what_is_no_address_is_a_fault():
    """An address is a host, one colon and a port; the host is of IPv4, or `localhost`. No name is looked up."""
    with Fleet() as fleet:
        config = fleet.config(["127.0.0.1:1"])
        for address in NO_ADDRESSES:
            fault = (1, b"", b"migctl: net %s\n" % address.encode())
            check(f"a node at {address!r}", fault, fleet.run("node", f"--listen={address}"))
            check(f"a proxy at {address!r}", fault, fleet.run("proxy", "--config", config, f"--listen={address}"))


@case(waits=True)
def a_service_outlives_a_want_of_open_files():
    """A connection that can't be accepted is passed over with a pause, so that a service isn't used up by it in no time. Who
    waits to be accepted is served once a file is free."""
    with Fleet() as fleet:
        node = fleet.node(clients=1000)
        first = node.client()
        first.ask(set_of("k", "v"), STORED)
        node.limit_files(node.open_files() + 2)
        served = [first, *node.clients(2)]
        for client in served:
            client.ask(get_of("k"), hits(("k", "v")))
        waiting = node.client()
        waiting.send(get_of("k"))
        time.sleep(1)  # it can't be accepted meanwhile, about ten times
        served.pop().quit()
        waiting.expect(hits(("k", "v")))
        for client in served:
            client.ask(get_of("k"), hits(("k", "v")))


@case
def ten_thousand_requests_over_one_connection_are_answered():
    """A session has no last request but the one that ends it: 10,050 gets, by 150 at once, of a node and of a proxy."""
    with Fleet() as fleet:
        node = fleet.node()
        for service in (node, fleet.proxy(fleet.config([node]))):
            client = service.client()
            client.ask(set_of("k", "v"), STORED)
            for _ in range(67):
                client.ask(get_of("k") * 150, hits(("k", "v")) * 150)
            client.quit()
