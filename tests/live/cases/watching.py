"""The command that watches a migration: through a pipe, on a terminal, and what it finds of premises that are broken."""
import json
import os
import pty
import socket
import statistics
import subprocess
import threading
import time

from cases.metrics import told_node, told_proxy
from cases.silence import check_took
from client import MISS, PATIENCE, STORED, get_of, hits, set_of
from children import CHILDREN
from fake import FullQueue, Teller
from fleet import Fleet, program
from moments import now, within
from ports import place_at
from running import case
from wanted import Wrong, check, check_true

LEAD = 4  # seconds until a migration begins that is watched, in which all that it needs is started
INTERVAL = 2  # and its interval
PHASES = ("old-only", "both-read-old", "both-read-new", "new-only")
PREMISES = ("same configuration", "new pool empty", "clocks near", "no clock went back")
HOME, CLEAR, REST, BELOW = b"\x1b[H", b"\x1b[2J", b"\x1b[K", b"\x1b[J"


def begin_soon():
    """The start of a migration that begins soon."""
    return int(time.time()) + LEAD


class Watched:
    """An old and a new node and two proxies, all of which tell their metrics. The second proxy may have a clock of its own."""

    def __init__(self, fleet, start, interval=INTERVAL, clock=None):
        self.old, self.new = told_node(fleet), told_node(fleet)
        self.config = fleet.config([self.old.service], [self.new.service], start, interval)
        self.proxies = [told_proxy(fleet, self.config), told_proxy(fleet, self.config, clock=clock)]

    def addresses(self):
        """Where the proxies and the nodes tell their metrics."""
        return [it.address for it in (*self.proxies, self.old, self.new)]


def watch(fleet, config, *words):
    """What a watch gives: its status, the lines of its output, and what stands on standard error."""
    status, output, faults = fleet.run("watch", "--config", config, *words)
    return status, output.decode().splitlines(), faults


class Watch:
    """A watch that goes on beside the case, and its lines as they come."""

    def __init__(self, fleet, config, *words):
        self.child = fleet.start_command("watch", "--config", config, *words, stdin=subprocess.DEVNULL)
        self.changed = threading.Condition()
        self.lines = []
        self.reader = threading.Thread(target=self.read, daemon=True)
        self.reader.start()

    def read(self):
        """Reads until it has ended."""
        for line in self.child.stdout:
            with self.changed:
                self.lines.append(line.decode().rstrip("\n"))
                self.changed.notify_all()

    def wait_for(self, what, is_there):
        """Waits until this holds of the lines, and gives them."""
        with self.changed:
            if not self.changed.wait_for(lambda: is_there(self.lines), PATIENCE):
                raise Wrong("the lines of a watch", what, self.lines)
            return list(self.lines)

    def look(self, number):
        """Its look of this number, from 0, where it writes each as an object."""
        return json.loads(self.wait_for(f"look {number}", lambda lines: len(lines) > number)[number])

    def looks(self):
        """All looks that it wrote so far."""
        with self.changed:
            return [json.loads(line) for line in self.lines]

    def expect_end(self, status):
        """It ends by itself, with this status and no fault."""
        try:
            self.child.wait(PATIENCE)
        except subprocess.TimeoutExpired:
            raise Wrong("the end of a watch", "an end", self.lines) from None
        self.reader.join(PATIENCE)
        check("its status", (status, b""), (CHILDREN.end(self.child), self.child.stderr.read()))


def text_of_proxy(phase):
    """What a proxy of some other configuration tells that a watch reads, by docs/WATCH.md. Its clock is the machine's."""
    return b"".join(
        b"migctl_%s\n" % line.encode()
        for line in (
            'proxy_config_info{sha256="%s"} 1' % ("0" * 64),
            f"clock_seconds {int(time.time())}",
            "clock_steps_back_total 0",
            "proxy_hop 0",
            *(f'proxy_phase{{phase="{it}"}} {int(it == phase)}' for it in PHASES),
            *(f'proxy_answers_total{{kind="{it}"}} 0' for it in ("hit", "leg lost")),
            "proxy_requests_held_back_total 0",
        )
    )


def going_through(*phases):
    """What a proxy tells that is in these phases one after another, each at one request, and stays in the last one."""
    return lambda number: text_of_proxy(phases[min(number, len(phases) - 1)])


def text_of_node(address):
    """What a node of this address tells that a watch reads. It has no items."""
    text = f'migctl_node_info{{address="{address}"}} 1\nmigctl_node_items 0\nmigctl_node_gets_total{{result="hit"}} 0\n'
    return text.encode()


def stats(items, hits_of_gets):
    """A memcached's answer to `stats`."""
    return b"STAT curr_items %d\r\nSTAT get_hits %d\r\nEND\r\n" % (items, hits_of_gets)


def found(lines):
    """What is found of each premise, by the lines of a look."""
    return {name: line[len(name) :].split(",")[0].strip() for line in lines for name in PREMISES if line.startswith(name)}


def listen_silently(fleet):
    """The address of a service that takes connections and answers nothing."""
    listener = fleet.keep(socket.create_server(("127.0.0.1", 0)))
    return "127.0.0.1:%d" % listener.getsockname()[1]


def listen_with(fleet, answer):
    """The address of a service that answers this, whatever it is asked, to each of its clients: a proxy on loops is one that asks
    nothing."""
    listener = fleet.keep(socket.create_server(("127.0.0.1", 0)))

    def serve():
        while True:
            try:
                stream, _ = listener.accept()
            except OSError:
                return
            threading.Thread(target=answer_one, args=(stream,), daemon=True).start()

    def answer_one(stream):
        with stream:
            try:
                stream.recv(4096)
                stream.sendall(answer)
            except OSError:
                pass  # who asked is gone

    threading.Thread(target=serve, daemon=True).start()
    return "127.0.0.1:%d" % listener.getsockname()[1]


@case(waits=True)
def a_migration_is_watched_to_its_end_through_a_pipe():
    with Fleet() as fleet:
        watched = Watched(fleet, begin_soon())
        status, lines, faults = watch(fleet, watched.config, *watched.addresses())
        check("its status", (0, b""), (status, faults))
        for proxy in watched.proxies:
            told = [line.split(" ", 2)[2] for line in lines if f" {proxy.address} " in line]
            check("the phases of a proxy", [f"{phase} of hop 0" for phase in PHASES], told)
        for name in PREMISES:
            told = [line.split(" ", 1)[1].split(",")[0] for line in lines if f" {name} " in line]
            check("a premise", [f"{name:<20}holds"], told)
        check("how many lines", 2 * len(PHASES) + len(PREMISES), len(lines))


@case(waits=True)
def each_look_is_an_object():
    """While a client asks a proxy for a key that is nowhere, twenty times each half second."""
    with Fleet() as fleet:
        watched = Watched(fleet, begin_soon())
        watched.old.service.ask(set_of("k", "v") + get_of("k", "k", "k"), STORED + hits(*[("k", "v")] * 3))
        client = watched.proxies[0].service.client()
        begun = int(time.time())
        watching = Watch(fleet, watched.config, "--json", *watched.addresses())
        while watching.child.poll() is None:
            with now():
                client.ask(get_of("absent") * 20, MISS * 20)
            time.sleep(0.5)
        watching.expect_end(0)
        looks = watching.looks()
        check_true("the first second is the machine's", 0 <= looks[0]["at"] - begun <= 3)
        pauses = [look["at"] - before["at"] for before, look in zip(looks, looks[1:])]
        check("how long one waits for the next look, mostly", 1, statistics.median_low(pauses))
        check("the last phases", ["new-only"] * 2, [proxy["phase"] for proxy in looks[-1]["proxies"]])
        check("the findings", {"empty": "holds", "forward": "holds", "near": "holds", "same": "holds"}, looks[-1]["premises"])
        nodes = [(it["pool"], it["name"], it["items"]) for it in looks[-1]["nodes"]]
        check("the nodes", [(0, watched.old.service.address, 1), (1, watched.new.service.address, 0)], nodes)
        check("hits of nodes", [3, 0], [it["hits"] for it in looks[-1]["nodes"]])
        # Both are the machine's. They say whole seconds, so that what is known of them is two seconds wide, and what asking takes.
        most = [it["spread"]["at_most"] for it in looks]
        check_true(f"that {most} are near", 0 < min(most) and max(most) < 4000)
        check("how far clocks are apart at least", [0] * len(looks), [it["spread"]["at_least"] for it in looks])
        rates = [it["proxies"][0]["requests_per_second"] for it in looks]
        check("requests a second before there are two looks", None, rates[0])
        check_true(f"that {rates[1:]} are some forty requests a second", 8 <= max(rates[1:]) <= 800)
        others = [it["proxies"][1]["requests_per_second"] for it in looks[1:]]
        check("requests a second of the other proxy", [0] * len(others), others)


@case
def a_look_says_the_machines_second():
    """As text, with the phase of that second; the proxies' clocks are the same but for what passed meanwhile."""
    with Fleet() as fleet:
        watched = Watched(fleet, begin_soon() - 1000, 2000)
        with within(2):
            begun = int(time.time())
            status, lines, faults = watch(fleet, watched.config, "--once", *watched.addresses())
            check("its status", (0, b""), (status, faults))
            second, hop, phase = lines[0].split(", ")
            check_true("its second", 0 <= int(second.removeprefix("second ")) - begun <= 2)
            check("its phase", ("hop 0", "both-read-old"), (hop, phase))
            for proxy in watched.proxies:
                (_, phase, clock, *_), = (line.split() for line in lines if line.startswith(proxy.address))
                check_true(f"its phase and its clock, {phase} {clock}", phase == "both-read-old" and clock in ("-1", "+0", "+1"))


@case(waits=True)
def a_proxy_behind_silent_ones_has_its_clock():
    """Each takes a second of the look: two before the watcher's second is read, and two behind it, which tell of themselves once
    and are silent when they are asked again."""
    with Fleet() as fleet:
        node = told_node(fleet)
        config = fleet.config([node.service], start=begin_soon() + 1000)
        first = [listen_silently(fleet) for _ in range(2)]
        later = [fleet.keep(Teller(going_through("old-only"), lambda number: 30 * min(number, 1))) for _ in range(2)]
        proxy = told_proxy(fleet, config)
        words = ("--once", *first, *(it.address for it in later), proxy.address, node.address)
        status, lines, faults = watch(fleet, config, *words)
        check("its status, by those that were never reached", (1, b""), (status, faults))
        check("how often those were asked that are silent later", [2, 2], [it.asked for it in later])
        (_, _, clock, *_), = (line.split() for line in lines if line.startswith(proxy.address))
        check_true(f"that {clock} is what its clock is ahead", clock in ("-1", "+0", "+1"))


@case(waits=True)
def nodes_are_asked_before_proxies():
    """At the first look a proxy has to be known first, so it is asked once more."""
    with Fleet() as fleet:
        journal = []
        nodes = [fleet.keep(Teller(lambda _: stats(0, 0), name=name, journal=journal)) for name in ("old", "new")]
        config = fleet.config([nodes[0].address], [nodes[1].address], begin_soon() + 1000, INTERVAL)
        proxy = fleet.keep(Teller(going_through("old-only", "old-only", "new-only"), name="proxy", journal=journal))
        status, _, faults = watch(fleet, config, "--json", proxy.address)
        check("its status, by its other configuration", (1, b""), (status, faults))
        check("who was asked", ["proxy", "old", "new", "proxy", "old", "new", "proxy"], [name for name, _ in journal])


@case(waits=True)
def a_look_that_takes_more_than_a_second_is_followed_at_once():
    """Two nodes take 0.6 s each to tell their metrics. Then the proxy is asked, and behind it the first node again."""
    with Fleet() as fleet:
        journal = []
        slow = [fleet.keep(Teller(lambda _: text_of_node("1.1.1.1:1"), lambda _: 0.6, "slow", journal)) for _ in range(2)]
        proxy = fleet.keep(Teller(going_through(*["old-only"] * 4, "new-only"), name="proxy", journal=journal))
        config = fleet.config([told_node(fleet).service], start=begin_soon() + 1000)
        status, _, faults = watch(fleet, config, "--json", *(it.address for it in slow), proxy.address)
        check("its status, by the other configuration", (1, b""), (status, faults))
        names, moments = zip(*journal)
        check("who was asked", ("slow", "slow", "proxy", "proxy", *("slow", "slow", "proxy") * 3), names)
        pauses = [moments[n] - moments[n - 1] for n in (4, 7, 10)]
        check_true(f"that of the pauses {pauses} one is short", min(pauses) < 0.5)


@case(waits=True)
def a_service_has_a_second_to_answer():
    """One that takes half a second is reached, one that takes two isn't."""
    with Fleet() as fleet:
        config = fleet.config([told_node(fleet).service], start=begin_soon() + 1000)
        for delay, is_reached in ((0.5, True), (2, False)):
            proxy = fleet.keep(Teller(going_through("old-only"), lambda _, delay=delay: delay))
            with within(2):  # it is asked twice, or in vain
                _, output, _ = fleet.run("watch", "--config", config, "--once", "--json", proxy.address)
                told, = json.loads(output)["proxies"]
                check(f"whether one that takes {delay} s is reached", is_reached, told["reached"])


@case(waits=True)
def a_node_that_hangs_costs_a_look_a_second():
    """One that takes connections and answers nothing, and one that takes none: as a node of the configuration, and as an address
    of metrics."""
    with Fleet() as fleet:
        node = told_node(fleet)
        for hanging in (listen_silently(fleet), fleet.keep(FullQueue()).address):
            config = fleet.config([hanging], [node.service], begin_soon() + 1000, INTERVAL)
            proxy = told_proxy(fleet, config)
            for more, nodes in (((), [None, 0]), ((hanging,), [None, 0])):
                begun = time.monotonic()
                status, output, faults = fleet.run(
                    "watch", "--config", config, "--once", "--json", proxy.address, node.address, *more
                )
                check_took("the watch ended", begun, 0.9, 6)
                look = json.loads(output)
                check("its status", (len(more), b""), (status, faults))
                check("items of the nodes", nodes, [it["items"] for it in look["nodes"]])
                check("who is reached", [True] + [False] * len(more), [it["reached"] for it in look["proxies"]])


@case(waits=True)
def clocks_that_come_apart_are_found():
    """Some looks after the first one a proxy's clock goes ahead by four seconds, where two are allowed."""
    with Fleet() as fleet:
        clock = fleet.clock()
        with within(7):
            watched = Watched(fleet, begin_soon() + 2, clock=clock)
            watching = Watch(fleet, watched.config, *watched.addresses())
            watching.wait_for("near clocks", lambda lines: any("clocks near         holds" in it for it in lines))
            time.sleep(3.3)
            clock.move(4)
        watching.expect_end(1)
        lines = watching.wait_for("the last line", lambda lines: lines[-1].startswith("broken: "))
        check("the last line", "broken: clocks near", lines[-1])
        check("lines of clocks", 2, sum(" clocks near " in it for it in lines))
        check("other lines of broken premises", 1, sum(" broken" in it for it in lines))


@case(waits=True)
def a_clock_that_went_back_before_a_restart_is_found():
    """The proxy itself tells no step back then: its reading is lower than at the look before."""
    with Fleet() as fleet:
        clock = fleet.clock()
        watched = Watched(fleet, begin_soon() + 1000, interval=1000, clock=clock)
        watching = Watch(fleet, watched.config, "--json", *watched.addresses())
        check("after two looks", "holds", (watching.look(0), watching.look(1))[1]["premises"]["forward"])
        with within(0.8):
            number = len(watching.looks()) - 1
            watched.proxies[1].service.kill()
            clock.move(-60)
            watched.proxies[1].service.begin_again()
        check_true("it is reached at each look", all(watching.look(number + 1)["proxies"][n]["reached"] for n in range(2)))
        premises = watching.look(number + 1)["premises"]
        check("the premises", {"empty": "holds", "forward": "broken", "near": "holds", "same": "holds"}, premises)


@case(waits=True)
def who_goes_away_while_a_watch_runs_is_missed():
    """The old node in the second phase, for good, and a proxy, for some seconds. Neither is taken for something else."""
    with Fleet() as fleet:
        watched = Watched(fleet, begin_soon(), interval=4)
        node, proxy = watched.old, watched.proxies[1]
        node.service.ask(set_of("k", "v"), STORED)
        objects = Watch(fleet, watched.config, "--json", *watched.addresses())
        changes = Watch(fleet, watched.config, *watched.addresses())
        changes.wait_for("the second phase", lambda lines: any(f" {proxy.address} {PHASES[1]} " in it for it in lines))
        number = len(objects.looks())
        look = objects.look(number)
        with now():  # before the next look begins
            node.service.kill()
            proxy.service.kill()
        check("items before", [(1, 0), (0, 0)], [(it["items"], it["hits"]) for it in look["nodes"]])
        for later in (number + 1, number + 2):
            look = objects.look(later)
            check("items at the next look", [(None, None), (0, 0)], [(it["items"], it["hits"]) for it in look["nodes"]])
            check("who is reached", [True, False], [it["reached"] for it in look["proxies"]])
        proxy.service.begin_again()
        for watching in (objects, changes):
            watching.expect_end(0)
        told = [line.split(" ", 2)[2] for line in changes.lines if f" {proxy.address} " in line]
        away = told.index("unreached")
        check("its phases before", [f"{phase} of hop 0" for phase in PHASES[:2]], told[:away])
        phases = [told[away + 1].split(" ")[0], *PHASES[PHASES.index(told[away + 1].split(" ")[0]) + 1 :]]
        check("its phases behind", [f"{phase} of hop 0" for phase in phases], told[away + 1 :])
        check("who has lines", [], [it for it in changes.lines if f" {node.address} " in it])
        check("the last phases", ["new-only"] * 2, [it["phase"] for it in objects.looks()[-1]["proxies"]])


@case(waits=True)
def a_watch_ends_without_who_was_never_reached():
    """It names them in the end, as it did at the first look."""
    with Fleet() as fleet:
        watched = Watched(fleet, begin_soon())
        absent = [listen_silently(fleet), fleet.keep(place_at("127.0.0.1")).address()]
        status, lines, faults = watch(fleet, watched.config, *watched.addresses(), *absent)
        check("its status", (1, b""), (status, faults))
        check("the last lines", [f"never reached: {it}" for it in absent], lines[-2:])
        for address in absent:
            check("its lines", ["unreached"], [line.split(" ", 2)[2] for line in lines[:-2] if f" {address} " in line])
        for proxy in watched.proxies:
            told = [line.split(" ", 2)[2] for line in lines if f" {proxy.address} " in line]
            check("the last phase of a proxy", "new-only of hop 0", told[-1])


def on_a_terminal(fleet, words, output_alone=False, **environment):
    """What a command writes to a terminal, which its input and its standard error may be too, and its status."""
    ours, theirs = pty.openpty()
    return written(fleet, words, ours, theirs, subprocess.DEVNULL if output_alone else theirs, environment)


def at_a_terminal(fleet, words, **environment):
    """What a command writes to a pipe, where its input and its standard error are a terminal, and its status."""
    ours, theirs = pty.openpty()
    try:
        return written(fleet, words, *os.pipe(), theirs, environment)
    finally:
        os.close(ours)
        os.close(theirs)


def written(fleet, words, ours, theirs, others, environment):
    """What a command writes to their end, as it is read at ours, and its status. Its input and its standard error are others.
    Colours are as wanted as they are usually, where this environment doesn't say it."""
    kept = {name: value for name, value in os.environ.items() if name != "NO_COLOR"}
    child = CHILDREN.start(
        [program(), *map(str, words)], stdin=others, stdout=theirs, stderr=others, env={**kept, **environment}
    )
    fleet.commands.append(child)
    os.close(theirs)
    wrote = b""
    until = time.monotonic() + PATIENCE
    try:
        while time.monotonic() < until:
            try:
                piece = os.read(ours, 65536)
            except OSError:  # the other end is closed
                break
            if not piece:
                break
            wrote += piece
        else:
            raise Wrong("the end of a watch", "an end", wrote)
    finally:
        os.close(ours)
    return CHILDREN.end(child), wrote.replace(b"\r\n", b"\n")


def frames_of(wrote):
    """The frames that were drawn: each begins at the top and ends where what is below is cleared."""
    *frames, rest = wrote.split(BELOW)
    check_true("each frame begins at the top", all(frame.startswith(HOME) for frame in frames))
    return [frame[len(HOME) :] for frame in frames], rest


@case(waits=True)
def a_migration_is_drawn_in_place():
    with Fleet() as fleet:
        watched = Watched(fleet, begin_soon())
        words = ["watch", "--config", watched.config, *watched.addresses()]
        status, wrote = on_a_terminal(fleet, words, NO_COLOR="", TERM="xterm")
        frames, rest = frames_of(wrote)
        check("its status, and what follows", (0, b""), (status, rest))
        check("which frames clear the screen", [True] + [False] * (len(frames) - 1), [CLEAR in frame for frame in frames])
        check_true("each line's rest is cleared", all(frame.count(b"\n") == frame.count(REST + b"\n") for frame in frames))
        check_true("phases have their colour", b"\x1b[36mnew-only\x1b[0m" in frames[-1])
        for proxy in watched.proxies:
            rows = [f"\n{proxy.address:<25}\x1b[36m{phase}\x1b[0m".encode() for phase in PHASES]
            check("the phases of a proxy", [True] * len(PHASES), [any(row in frame for frame in frames) for row in rows])


@case(waits=True)
def without_colours_a_terminal_gets_none():
    with Fleet() as fleet:
        watched = Watched(fleet, int(time.time()) - 60)
        status, wrote = on_a_terminal(fleet, ["watch", "--config", watched.config, *watched.addresses()], NO_COLOR="1")
        frames, rest = frames_of(wrote)
        check("its status, its frames, and what follows", (0, 1, b""), (status, len(frames), rest))
        check_true("no colour", b"m" not in b"".join(part[:4] for part in frames[0].split(b"\x1b[")[1:]).replace(b"hop", b""))


@case
def a_terminal_is_where_the_output_goes():
    """Whatever the input and standard error are: an output that is none gets lines of changes. One look may have colours too."""
    with Fleet() as fleet:
        watched = Watched(fleet, int(time.time()) - 60)
        words = ["watch", "--config", watched.config, *watched.addresses()]
        for output_alone in (True, False):
            status, wrote = on_a_terminal(fleet, words, output_alone)
            frames, rest = frames_of(wrote)
            check("its status, its frames, and what follows", (0, 1, b""), (status, len(frames), rest))
            check_true("phases have their colour", b"\x1b[36mnew-only\x1b[0m" in frames[0])
        status, wrote = at_a_terminal(fleet, words)
        lines = [line.split(" ", 1) for line in wrote.decode().splitlines()]
        check_true("each line begins with a second", status == 0 and all(second.isdigit() for second, _ in lines))
        phases = [f"{proxy.address} new-only of hop 0" for proxy in watched.proxies]
        check("the lines of the proxies", phases, [line for _, line in lines[:2]])
        for no_color, colours in (({}, True), ({"NO_COLOR": ""}, True), ({"NO_COLOR": "1"}, False)):
            status, wrote = on_a_terminal(fleet, [*words, "--once"], **no_color)
            check_true("it isn't drawn in place", status == 0 and wrote.startswith(b"second "))
            check("whether it has colours", (colours, colours), (b"\x1b[36mnew-only\x1b[0m" in wrote, b"\x1b" in wrote))
        status, wrote = at_a_terminal(fleet, [*words, "--once"])
        check("its status, and whether it has colours", (0, False), (status, b"\x1b" in wrote))


@case
def a_proxy_of_another_configuration():
    with Fleet() as fleet:
        watched = Watched(fleet, begin_soon() + 1000)
        other = told_proxy(fleet, fleet.config([watched.old.service], [watched.new.service], begin_soon() + 2000, INTERVAL))
        for addresses in ((*watched.addresses(), other.address), (other.address, *watched.addresses())):
            status, lines, faults = watch(fleet, watched.config, "--once", *addresses)
            check("its status", (1, b""), (status, faults))
            check("the findings", ["broken", "holds", "holds", "holds"], [found(lines)[name] for name in PREMISES])
            line, = (line for line in lines if line.startswith("same configuration"))
            check("who differs", f"same configuration  broken, {other.address} differs", line)
            check("the last line", "broken: same configuration", lines[-1])
        status, lines, faults = watch(fleet, watched.config, "--once", other.address, watched.old.address, watched.new.address)
        check("its status, of it alone", (1, "broken: same configuration"), (status, lines[-1]))


@case
def a_new_node_that_holds_an_item():
    with Fleet() as fleet:
        watched = Watched(fleet, begin_soon() + 1000)
        watched.new.service.ask(set_of("k", "v"), STORED)
        status, lines, faults = watch(fleet, watched.config, "--once", *watched.addresses())
        check("its status", (1, b""), (status, faults))
        check("the findings", ["holds", "broken", "holds", "holds"], [found(lines)[name] for name in PREMISES])
        check("the last line", "broken: new pool empty", lines[-1])


@case
def a_node_that_tells_nothing_is_asked_for_its_stats():
    """A memcached answers; one of our own nodes doesn't."""
    with Fleet() as fleet:
        stats = b"STAT curr_items 7\r\nSTAT get_hits 3\r\nEND\r\n"
        memcached = listen_with(fleet, stats)
        node = fleet.node()
        config = fleet.config([memcached], [node], begin_soon() + 1000, INTERVAL)
        proxy = told_proxy(fleet, config)
        status, output, faults = fleet.run("watch", "--config", config, "--once", "--json", proxy.address)
        look = json.loads(output)
        check("its status", (0, b""), (status, faults))
        check("the nodes", [(7, 3), (None, None)], [(it["items"], it["hits"]) for it in look["nodes"]])
        check("new pool empty", "unseen", look["premises"]["empty"])


@case
def one_that_is_silent_and_one_that_talks_nonsense():
    with Fleet() as fleet:
        watched = Watched(fleet, begin_soon() + 1000)
        silent = listen_silently(fleet)
        nonsense = listen_with(fleet, b"HTTP/1.0 200 OK\r\n\r\nmigctl_proxy_hop -1\n")
        nobody = fleet.keep(place_at("127.0.0.1")).address()
        for address in (silent, nonsense, nobody):
            began = time.monotonic()
            status, lines, faults = watch(fleet, watched.config, "--once", *watched.addresses(), address)
            check("its status", (1, b""), (status, faults))
            check("its line", [f"{address:<25}unreached"], [line for line in lines if line.startswith(address)])
            check("the last line", f"never reached: {address}", lines[-1])
            check_true("it took no longer than a service may", time.monotonic() - began < 2.5)


@case
def an_output_that_fails_ends_a_watch():
    with Fleet() as fleet:
        watched = Watched(fleet, begin_soon() + 1000)
        with open("/dev/full", "wb") as full:
            status, _, faults = fleet.run("watch", "--config", watched.config, *watched.addresses(), stdout=full)
        check("what is said", (1, b"migctl: output\n"), (status, faults))
