"""Nodes and proxies that run for one case, and the configurations of the proxies."""
import functools
import json
import os
import pathlib
import resource
import shutil
import signal
import subprocess
import tempfile
import time

from children import CHILDREN
from clocks import MovedClock
from client import PATIENCE, Client
from ports import is_listened_at, place_at
from program import path
from wanted import Wrong, check

FOREVER = str(2**64 - 1)  # clients of a service that its case ends
YEAR_2100 = 4102444800  # the start of a migration that no case sees begin
TRIES = 5  # ports that are tried for a service before it is given up
LOOPS = 2  # of a service that runs on loops, where its case doesn't say how many

HOME = tempfile.mkdtemp(prefix="migctl-live-")  # of the files of all cases, until the run ends


class Form:
    """Whether services of the run whose case leaves it open run on loops, and tell their metrics, and not by threads."""

    on_loops = False


@functools.lru_cache(maxsize=None)
def program():
    """The program, which is looked for once."""
    return path()


def remove_home():
    """Removes the files of all cases, also where a thread is still at one."""
    for _ in range(100):
        shutil.rmtree(HOME, ignore_errors=True)
        if not os.path.exists(HOME):
            return
        time.sleep(0.05)


def number_of_loops(words):
    """On how many loops a service of these words runs; 0 where it runs by threads."""
    return int(words[words.index("--loops") + 1]) if "--loops" in words else 0


class Service:
    """A node or a proxy that runs."""

    def __init__(self, fleet, words, place, host=None):
        self.fleet = fleet
        self.words = words
        self.place = place
        self.address = place.address(host)
        self.metrics = words[words.index("--metrics") + 1] if "--metrics" in words else None
        self.loops = number_of_loops(words)
        self.ended_by_case = False
        self.begin()

    def begin(self):
        """Starts it at its address."""
        self.ended_by_case = False
        self.output = self.fleet.new_file()
        self.faults = self.fleet.new_file()
        self.child = self.fleet.start_service([*self.words, "--listen", self.address], self.output, self.faults)

    def listens(self):
        """Waits until it listens. Whether it does: else it has ended."""
        until = time.monotonic() + PATIENCE
        while self.child.poll() is None:
            if self.has_begun():
                return True
            if time.monotonic() > until:
                raise Wrong(f"the start of {self.name()}", "something that listens", "nothing")
            time.sleep(0.005)
        return False

    def has_begun(self):
        """Whether it listens and has the threads of its loops and, where it tells its metrics, the socket and the thread for that, so
        that who counts its open files or its threads counts these too."""
        if not is_listened_at(self.address) or (self.metrics and not is_listened_at(self.metrics)):
            return False
        return self.thread_count() > self.loops + (self.metrics is not None)

    def client(self, little_room=False):
        """A connection to it, which may have room for some 70,000 bytes alone that aren't read yet."""
        return self.fleet.keep(Client(self.address, little_room))

    def clients(self, count):
        """So many connections to it."""
        return [self.client() for _ in range(count)]

    def ask(self, request, wanted, address=None):
        """Asks over a connection of its own, to its address as it was said or to this one."""
        with Client(address or self.address) as client:
            client.ask(request, wanted)

    def printed(self):
        """What it wrote on standard output and on standard error so far."""
        return self.output.read_bytes(), self.faults.read_bytes()

    def wait(self):
        """Waits until it has ended by itself, and gives its status."""
        self.ended_by_case = True
        try:
            self.child.wait(PATIENCE)
        except subprocess.TimeoutExpired:
            raise Wrong(f"the end of {self.name()}", "an end by itself", f"it runs after {PATIENCE} seconds") from None
        return CHILDREN.end(self.child)

    def expect_served(self, count, status=0):
        """It ends by itself, says that so many clients ended without a fault, and nothing else."""
        got = self.wait()
        check(f"what {self.name()} says in the end", (status, b"served %d\n" % count, b""), (got, *self.printed()))

    def kill(self):
        """Ends it at once."""
        self.ended_by_case = True
        CHILDREN.end(self.child)

    def begin_again(self):
        """Starts it again, at the same address."""
        self.kill()
        self.begin()
        if not self.listens():
            raise Wrong(f"the second start of {self.name()}", "something that listens", self.printed())

    def stop(self):
        """Stops it, as one that hangs, and waits until each of its threads has stopped."""
        self.child.send_signal(signal.SIGSTOP)
        until = time.monotonic() + PATIENCE
        while not all(it.read_text().rsplit(")", 1)[1].split()[0] == "T" for it in self.threads()):
            if time.monotonic() > until:
                raise Wrong(f"the stop of {self.name()}", "threads that have stopped", "others")
            time.sleep(0.005)

    def threads(self):
        """The files that tell the state of each of its threads."""
        return pathlib.Path(f"/proc/{self.child.pid}/task").glob("*/stat")

    def go_on(self):
        """Lets it go on."""
        self.child.send_signal(signal.SIGCONT)

    def open_files(self):
        """How many files it has open."""
        return len(os.listdir(f"/proc/{self.child.pid}/fd"))

    def processor_seconds(self):
        """How much processor time it took so far, in its own code and in the system's."""
        words = pathlib.Path(f"/proc/{self.child.pid}/stat").read_text(encoding="ascii").rsplit(") ", 1)[1].split()
        return (int(words[11]) + int(words[12])) / os.sysconf("SC_CLK_TCK")

    def thread_count(self):
        """How many threads it has."""
        return len(list(self.threads()))

    def memory(self, name):
        """How many bytes of memory it has, by this name in the system's table: VmRSS is what is resident, and VmData what it
        may write to."""
        lines = pathlib.Path(f"/proc/{self.child.pid}/status").read_text(encoding="ascii").splitlines()
        kibibytes, = (line.split()[1] for line in lines if line.startswith(f"{name}:"))
        return int(kibibytes) * 1024

    def limit_files(self, most):
        """From now on it may have so many open files."""
        resource.prlimit(self.child.pid, resource.RLIMIT_NOFILE, (most, most))

    def limit_memory(self, more):
        """From now on, until this is said again, it may take so many bytes of addresses more than it has."""
        pages = int(pathlib.Path(f"/proc/{self.child.pid}/statm").read_text().split()[0])
        _, greatest = resource.prlimit(self.child.pid, resource.RLIMIT_AS)
        resource.prlimit(self.child.pid, resource.RLIMIT_AS, (pages * resource.getpagesize() + more, greatest))

    def name(self):
        """What it is called in what a failure says."""
        return f"the {self.words[self.words.index(program()) + 1]} at {self.address}"


class Fleet:
    """What one case starts. All of it ends with the case."""

    def __enter__(self):
        self.folder = pathlib.Path(tempfile.mkdtemp(dir=HOME))
        self.services, self.commands, self.kept, self.files = [], [], [], 0
        return self

    def __exit__(self, kind, error, trace):
        early = [it for it in self.services if not it.ended_by_case and it.child.poll() is not None]
        said = [(it.name(), it.child.returncode, *it.printed()) for it in early]
        for it in self.kept:
            it.close()
        for it in (*self.commands, *(service.child for service in self.services)):
            CHILDREN.end(it)
        shutil.rmtree(self.folder, ignore_errors=True)
        if early and kind is None:
            raise Wrong("services that ended early", [], said)

    def keep(self, it):
        """Closes something when the case ends."""
        self.kept.append(it)
        return it

    def new_file(self, text=b""):
        """A new file in the folder of the case, which holds this text."""
        self.files += 1
        file = self.folder / f"file{self.files}"
        file.write_bytes(text)
        return file

    def start_service(self, words, output, faults):
        """Starts a program that writes to these files."""
        with open(output, "wb") as out, open(faults, "wb") as err:
            return CHILDREN.start(words, stdin=subprocess.DEVNULL, stdout=out, stderr=err)

    def clock(self, seconds=0):
        """A clock for services, which is so many seconds ahead of the machine's."""
        return MovedClock(self.new_file(), seconds)

    def serve(self, *words, hosts=("127.0.0.1",), host=None, clock=None, before=(), left_open=True):
        """A service at a port that is free at each of these hosts, at the first of them or at this one, by the machine's time or
        by another clock, started by the words of a command that stand before its own. Where another program took the port
        meanwhile, it is started at another one. Where it isn't left open how it runs, it runs as its words say."""
        before = [*before, *(clock.words() if clock else [])]
        for _ in range(TRIES):
            whole = self.with_loops([*words, *(self.form_of(words) if left_open else [])])
            service = Service(self, [*before, program(), *whole], self.keep(place_at(*hosts)), host)
            self.services.append(service)
            if service.listens():
                return service
            taken = b"migctl: net %s\n" % service.address.encode()
            check(f"why {service.name()} ended", (1, b"", taken), (service.wait(), *service.printed()))
        raise Wrong(f"{words}", f"a free port among {TRIES}", "none")

    def form_of(self, words):
        """The words by which a service runs on loops where this run's do, unless these say how it runs: on loops, or with a bound of
        turns, which there is by threads alone."""
        if not Form.on_loops or not {"--metrics", "--forever", "--turns"}.isdisjoint(words):
            return []
        return ["--metrics", self.keep(place_at("127.0.0.1")).address()]

    def with_loops(self, words):
        """These words, which say how many loops there are where it is a service that tells its metrics."""
        if "--loops" in words or "--metrics" not in words:
            return words
        return [*words, "--loops", str(LOOPS)]

    def node(self, *words, clients=FOREVER, **where):
        """A node, which serves clients until the case ends unless a number of them is said."""
        return self.serve("node", "--clients", str(clients), *words, **where)

    def node_by_threads(self, *words, **how):
        """A node that runs by threads, however the others of this run do."""
        return self.node(*words, left_open=False, **how)

    def second_node(self, first, host):
        """A node at the port of another one, which is kept at this host too."""
        words = ["node", "--clients", FOREVER]
        service = Service(self, [program(), *self.with_loops([*words, *self.form_of(words)])], first.place, host)
        self.services.append(service)
        if not service.listens():
            raise Wrong(f"the start of {service.name()}", "something that listens", service.printed())
        return service

    def nodes(self, count):
        """So many nodes."""
        return [self.node() for _ in range(count)]

    def proxy(self, config, *words, clients=FOREVER, **where):
        """A proxy by this configuration: by threads, or on loops where this run's services are or its words say so."""
        return self.serve("proxy", "--config", str(config), "--clients", str(clients), *words, **where)

    def proxy_by_threads(self, config, *words, **how):
        """A proxy by this configuration that runs by threads, however the others of this run do."""
        return self.proxy(config, *words, left_open=False, **how)

    def proxy_on_loops(self, config, *words, loops=LOOPS, **how):
        """A proxy by this configuration that runs on so many loops, however the others of this run do."""
        metrics = self.keep(place_at("127.0.0.1")).address()
        return self.proxy(config, "--metrics", metrics, "--loops", str(loops), *words, **how)

    def config(self, old, new=None, start=YEAR_2100, interval=None, hash_name=None):
        """The file of a configuration. Pools are lists of services or of addresses; a new pool that isn't said is one
        node that doesn't run, which no request before the start goes to."""
        if new is None:
            new = [self.keep(place_at("127.0.0.1")).address()]
        whole = {
            "pools": {"old": {"servers": addresses(old)}, "new": {"servers": addresses(new)}},
            "route": {"type": "MigrateRoute", "from": "PoolRoute|old", "to": "PoolRoute|new", "start_time": start},
        }
        if interval is not None:
            whole["route"]["interval"] = interval
        if hash_name is not None:
            whole["hash"] = hash_name
        return self.new_file(json.dumps(whole).encode())

    def chain_config(self, pools, starts, interval, hash_name):
        """The file of a configuration of migrations in a row: one at each of these starts, from each pool to the next."""
        route = "PoolRoute|0"
        for number, start in enumerate(starts, 1):
            route = {"type": "MigrateRoute", "from": route, "to": f"PoolRoute|{number}", "start_time": start, "interval": interval}
        servers = {str(number): {"servers": addresses(pool)} for number, pool in enumerate(pools)}
        return self.new_file(json.dumps({"hash": hash_name, "pools": servers, "route": route}).encode())

    def run(self, *words, stdin=b"", stdin_file=None, stdout=subprocess.PIPE, memory=None):
        """Runs a command to its end, and gives its status, its output and what stands on standard error. Its input is this
        text, or the open file of this number, which is closed then. It may be limited to so many bytes of addresses."""
        given = subprocess.PIPE if stdin_file is None else stdin_file
        try:
            child = self.start_command(*words, stdin=given, stdout=stdout, memory=memory)
        finally:
            if stdin_file is not None:
                os.close(stdin_file)
        try:
            output, faults = child.communicate(stdin if stdin_file is None else None, PATIENCE)
        except subprocess.TimeoutExpired:
            raise Wrong(f"the end of {words}", "an end", f"it runs after {PATIENCE} seconds") from None
        finally:
            CHILDREN.end(child)
        return child.returncode, output, faults

    def start_command(self, *words, stdin=subprocess.PIPE, stdout=subprocess.PIPE, memory=None, clock=None):
        """Starts a command, by the machine's time or by another clock, which is ended with the case at the latest."""
        if words[:1] in (("node",), ("proxy",)):
            words = self.with_loops([*words, *self.form_of(words)])
        words = [*(clock.words() if clock else []), program(), *(os.fspath(word) for word in words)]
        if memory is not None:
            words = ["sh", "-c", f'ulimit -v {memory // 1024}; exec "$@"', "sh", *words]
        child = CHILDREN.start(words, stdin=stdin, stdout=stdout, stderr=subprocess.PIPE)
        self.commands.append(child)
        return child


def addresses(pool):
    """The addresses of a pool of services or of addresses."""
    return [it if isinstance(it, str) else it.address for it in pool]
