"""Services and commands that lack memory or open files: who is harmed by it, and who isn't."""
import json

from asking import ask_at_once
from client import DELETED, STORED, delete_of, get_of, hits, set_of
from fleet import Fleet
from running import case
from wanted import check, check_true

MIB = 1 << 20


def both(fleet, clients):
    """A node by threads for so many clients, and a proxy by threads for as many before another node."""
    return fleet.node_by_threads(clients=clients), fleet.proxy_by_threads(fleet.config([fleet.node()]), clients=clients)


def serves(client, value):
    """A client is served as ever."""
    client.ask(set_of("k", value), STORED)
    client.ask(get_of("k", "l"), hits(("k", value), ("l", "kept")))
    client.ask(delete_of("k"), DELETED)


@case(waits=True, quick=False)
def clients_for_whom_there_is_no_memory_harm_no_other():
    """Fifty clients at once, of a node and of a proxy that may take 60 MiB more: each has the stack of a thread reserved for
    it. Who was served before is served throughout, and so is who comes once these are gone. A client for whom no thread
    could be made is one that ended with a fault."""
    with Fleet() as fleet:
        for service in both(fleet, clients=100):
            first = service.client()
            first.ask(set_of("l", "kept"), STORED)
            service.limit_memory(60 * MIB)
            askers = ask_at_once(service, 50, rounds=20)
            closed = sum(it.closed for it in askers)
            check_true("some clients are closed, and some are served", 0 < closed < 50)
            serves(first, "first")
            for number in range(48):
                with service.client() as client:
                    serves(client, f"{number}")
                    client.quit()
            first.quit()
            with service.client() as client:
                client.quit()
            service.expect_served(100 - closed, status=1)


@case(waits=True)
def clients_for_whom_there_is_no_open_file_harm_no_other():
    """The same with four more open files. Who can't be accepted waits, and is served once a file is free; each try that
    failed counts as a client that ended with a fault."""
    with Fleet() as fleet:
        for service in both(fleet, clients=1000):
            first = service.client()
            first.ask(set_of("l", "kept"), STORED)
            service.limit_files(service.open_files() + 4)
            ask_at_once(service, 50, rounds=2)
            serves(first, "first")
            first.quit()
            use_up(service, 1000)
            status = service.wait()
            output, faults = service.printed()
            check(f"the status and the faults of {service.name()}", (1, b""), (status, faults))
            check_true(f"{service.name()} says whom it served", 50 < int(output.split()[1]) < 1000)


def use_up(service, clients):
    """Connects to a service until it has ended, so often at most. A connection that is being made while it ends is reset."""
    for _ in range(clients):
        try:
            with service.client() as client:
                client.stop_sending()
                client.expect_end()
        except ConnectionResetError:
            continue
        except ConnectionRefusedError:
            return


def large_script():
    """A script of 16 MiB, of gets."""
    get = {"do": "client", "proxy": 0, "request": {"kind": "get", "keys": ["k" * 250]}}
    text = json.dumps({"format": 1, "events": [get] * 25000}, separators=(",", ":")).encode()
    return text + b" " * (16 * MIB - len(text))


@case(waits=True, quick=False)
def a_check_without_memory_says_so_and_nothing_else():
    """A text of 16 MiB takes more than these limits of memory to be read: one line says so, and nothing is printed."""
    text = large_script()
    with Fleet() as fleet:
        named = ("check", fleet.new_file(text))
        given = ("check",)
        for words, limit in ((given, 12), (given, 20), (named, 12), (named, 24), (named, 40), (named, 56)):
            stdin = text if words == given else b""
            status, output, faults = fleet.run(*words, stdin=stdin, memory=limit * MIB)
            lines = (b"migctl: plan 13 OutOfMemory\n", b"migctl: memory\n")
            check(f"a check in {limit} MiB", (1, b"", True), (status, output, faults in lines or faults))
