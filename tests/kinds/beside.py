"""What several kinds need: jobs side by side, services that tell their metrics, and waiting for what they tell."""
import os
import threading
import time

from client import PATIENCE
from ports import place_at
from scraping import scraped
from wanted import Wrong

UNPROVED = "MIGCTL_UNPROVED" in os.environ
MIB = 1 << 20


def in_threads(*jobs):
    """Runs functions side by side to their ends. Fails where one did, and is late where one was."""
    import moments

    failures, late = [], []

    def guarded(job):
        moments.begin_case()
        try:
            job()
        except Exception as error:  # of a thread of its own, raised again below
            failures.append(error)
        if moments.was_late():
            late.append(job)

    threads = [threading.Thread(target=guarded, args=(job,), daemon=True) for job in jobs]
    for it in threads:
        it.start()
    for it in threads:
        it.join()
    if late:
        moments.this_thread.late = True
    if failures:
        raise failures[0]


def told_node(fleet, *words, **how):
    """A node that tells its metrics."""
    return fleet.node("--metrics", fleet.keep(place_at("127.0.0.1")).address(), *words, **how)


def told_proxy(fleet, config, *words, **how):
    """A proxy on loops, which tells its metrics."""
    return fleet.proxy(config, "--metrics", fleet.keep(place_at("127.0.0.1")).address(), *words, **how)


def wait_until(what, holds, patience=PATIENCE):
    """Waits until something holds, and gives that."""
    until = time.monotonic() + patience
    while not (got := holds()):
        if time.monotonic() > until:
            raise Wrong(what, "in time", "never")
        time.sleep(0.02)
    return got


def wait_for_links(proxy, *nodes):
    """Waits until each loop of a proxy has a connection to each of these nodes."""
    wanted = {it if isinstance(it, str) else it.address for it in nodes}

    def are_up():
        samples = scraped(proxy.metrics)
        return all(samples[name] == proxy.loops for name in samples if name[0] == "migctl_proxy_link_up" and name[2] in wanted)

    wait_until("links to nodes", are_up)
