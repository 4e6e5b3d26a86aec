"""Proves the libraries of the program side by side, each in a lane.

The toolchain has two crates of one checkout that stand on a common one wait for each other. So a lane is a copy of the sources, in
which one library is proved at a time; it takes those below by links. What a lane proved moves to the checkout, where a later call
finds it, and so do other commands. That a library is of the sources of the checkout says the toolchain, which looks again whenever
it builds on it.
"""
import hashlib
import os
import re
import shutil
import signal
import subprocess
import time

from making import ROOT, TOOLCHAIN, NotMade, free_memory, printed, turn

CRATES = ROOT / "crates"
PARTS = ("src", "specs", "proofs")  # of the sources of a crate
KEPT = ("incremental", "rlib")  # what a proof leaves in out/: the work that it can begin with again, and the library
PROGRAM = "migctl"
ADOPTED = "begins with what a check kept in"  # what the toolchain says of a proof that begins with kept work
MEMORY_OF_JOB = 2_000_000_000  # bytes that each process of a proof takes
MOST_LANES = 3  # more slow one another down
MOST_JOBS = 4  # of one library; more were never tried
AFTER = 0.1  # seconds after which is looked again at what runs
PATIENCE = 30  # seconds in which a proof that is told to end has to
FILE = re.compile(r"[0-9a-f]{64}  ")  # before a file of the sources
FUNCTIONS = re.compile(r"^so far: (\d+) of|^logic=proved functions=(\d+)", re.MULTILINE)  # that a proof says are proved


class Sources:
    """What the program is made of as it stands: its libraries, each behind those below it, and for each the names of all below it
    and a sum of all that its proof reads."""

    def __init__(self):
        *listed, self.sum = printed(ROOT / "scripts/sources", "--list").splitlines()
        self.lines = [line for line in listed if not FILE.match(line)]
        files = [line for line in listed if FILE.match(line)]
        self.below, self.sums = {}, {}
        toolchain = printed("rt", "version")
        for line in self.lines:
            head, _, uses = line.partition(":")
            name = head.split()[0]
            used = [it for it in uses.split() if it in self.below]
            self.below[name] = {*used}.union(*(self.below[it] for it in used))
            own = [it for it in files if f"  {name}/" in it]
            told = "\n".join([toolchain, line, *own, *(self.sums[it] for it in used)])
            self.sums[name] = hashlib.sha256(told.encode()).hexdigest()
        self.below.pop("migctl")

    def is_proved(self, name):
        """Whether the checkout has this library of these sources, as the one who proved it wrote down."""
        return text_of(note_of(name)) == self.note(name) and text_of(stamp_of(name)) != ""

    def note(self, name):
        """What is written down of a library that was proved: of which sources, and which it is."""
        return f"{self.sums[name]} {text_of(stamp_of(name))}\n"


def note_of(name):
    """The file in which it stands what was proved of a library."""
    return CRATES / name / "out/proved"


def stamp_of(name):
    """The file by which the toolchain tells a library."""
    return CRATES / name / "out/rlib/stamp"


def text_of(file):
    """What stands in a file; nothing where there is none."""
    return file.read_text(encoding="utf-8") if file.is_file() else ""


def jobs_at_once(processors, memory):
    """How many processes may prove at a time. Those of one library wait for one another now and then, so on more than two
    processors there are half as many again, where free memory holds them."""
    wanted = processors + (processors // 2 if processors > 2 else 0)
    return max(1, min(wanted, memory // MEMORY_OF_JOB))


class Lane:
    """A copy of the sources of the program."""

    def __init__(self, folder, sources):
        self.folder = folder
        for name in sources.sums:
            for part in PARTS:
                if (CRATES / name / part).is_dir():
                    shutil.copytree(CRATES / name / part, self.crate(name) / part)
        (folder / "crates.txt").write_text("".join(f"{line}\n" for line in sources.lines), encoding="utf-8")

    def crate(self, name):
        """The folder of a crate."""
        return self.folder / "crates" / name

    def take(self, name, below):
        """Gives a library those below it and the work that an earlier proof of it kept, as the checkout has them."""
        for each in below:
            link(CRATES / each / "out/rlib", self.crate(each) / "out/rlib")
        for part in KEPT:
            link(CRATES / name / "out" / part, self.crate(name) / "out" / part)

    def give(self, name, parts=KEPT):
        """Moves what a proof left to the checkout. The library keeps its name here too, since the toolchain tells other checkouts
        on this machine to take it from here."""
        with turn(CRATES / name, f"another rt works in crates/{name}"):
            for part in parts:
                move(self.crate(name) / "out" / part, CRATES / name / "out" / part, self.folder / "old")
            link(CRATES / name / "out/rlib", self.crate(name) / "out/rlib")


def link(source, target):
    """Gives the files of a folder a second name, where the folder is there and not yet taken. The work of a proof is written in
    place but for its .oantt files, so its other files are copied."""

    def link_or_copy(file, other):
        try:
            if "/incremental/" not in file or file.endswith(".oantt"):
                return os.link(file, other)
        except OSError:
            pass
        return shutil.copy2(file, other)

    if source.is_dir() and not target.exists():
        shutil.copytree(source, target, copy_function=link_or_copy)


def move(source, target, aside):
    """Moves a folder in place of another, unless it is the same."""
    if not source.is_dir() or is_same(source / "stamp", target / "stamp"):
        return
    target.parent.mkdir(exist_ok=True)
    if target.exists():
        shutil.move(target, aside)
    shutil.move(source, target)
    shutil.rmtree(aside, ignore_errors=True)


def is_same(file, other):
    """Whether two names are those of one file."""
    return file.exists() and other.exists() and os.path.samefile(file, other)


class Running:
    """A proof that runs, by a command of the toolchain. What it says goes to a file."""

    def __init__(self, name, words, folder, log, jobs=1, lane=None):
        self.name, self.jobs, self.lane, self.log = name, jobs, lane, log
        self.begun = time.monotonic()
        with open(log, "wb") as said:
            self.child = subprocess.Popen(words, cwd=folder, stdin=subprocess.DEVNULL, stdout=said, stderr=said)

    def has_ended(self):
        """Whether it has ended."""
        return self.child.poll() is not None

    def seconds(self):
        """How long it takes so far."""
        return time.monotonic() - self.begun

    def said(self):
        """What it said so far."""
        return self.log.read_text(encoding="utf-8", errors="replace")

    def tell_to_end(self):
        """Has it end, with all that it started."""
        if not self.has_ended():
            self.child.send_signal(signal.SIGTERM)

    def end(self):
        """Waits for it once it was told to end."""
        try:
            self.child.wait(PATIENCE)
        except subprocess.TimeoutExpired:
            self.child.kill()
            self.child.wait()


class Proof:
    """The proof of the libraries of some sources: which wait, which run, which are done, and how many functions were proved now."""

    def __init__(self, sources, times, home, processors):
        self.sources, self.below, self.times, self.home = sources, sources.below, times, home
        self.done = [name for name in self.below if sources.is_proved(name)]
        self.waiting = [name for name in self.below if name not in self.done]
        self.running = []
        self.lane_of = {}  # of each library that was proved now, and not taken from another checkout
        self.functions = 0
        self.took = {}  # the seconds of each crate that was proved now, from nothing
        self.processors = processors
        self.jobs = jobs_at_once(processors, free_memory())
        self.lanes = []
        self.ways = longest_ways(self.below, times)

    def run(self, telling):
        """Proves all of them."""
        count = min(MOST_LANES, self.jobs, len(self.waiting))
        self.lanes = [Lane(self.home / f"lane-{number}", self.sources) for number in range(count)]
        try:
            while self.waiting or self.running:
                self.begin()
                self.wait(telling)
        finally:
            self.end_all()

    def share(self):
        """Has the toolchain tell other checkouts on this machine to take these libraries from this one, since the lanes go. It does
        so when it takes a library itself. That is tried with one: where it can't, it makes that one again of the work that is kept,
        in seconds. The others it takes as it builds the program."""
        names = list(self.lane_of)
        if not names:
            return
        stamp_of(names[0]).unlink()
        subprocess.run([TOOLCHAIN, "lib"], cwd=CRATES / names[0], stdin=subprocess.DEVNULL, capture_output=True)
        if is_same(stamp_of(names[0]), self.lane_of[names[0]].crate(names[0]) / "out/rlib/stamp"):
            for name in names[1:]:
                stamp_of(name).unlink()

    def build(self, telling):
        """Builds the program over them in the checkout itself, by the toolchain's command that runs it."""
        self.share()
        words = [TOOLCHAIN, "run", "--", "timeline", "--config", ROOT / "examples/fleet.json"]
        self.running.append(Running(PROGRAM, words, CRATES / PROGRAM, self.home / "migctl.log"))
        try:
            while self.running:
                self.wait(telling)
        finally:
            self.end_all()

    def wait(self, telling):
        """Waits a moment, tells how far it is, and takes what has ended."""
        telling.tell(", ".join(it.name for it in self.running))
        time.sleep(AFTER)
        for it in [it for it in self.running if it.has_ended()]:
            self.take(it)

    def begin(self):
        """Begins what can begin, those first from which the longest way leads to the program."""
        ready = [name for name in self.waiting if self.below[name] <= {*self.done}]
        ready.sort(key=lambda name: -self.ways[name])
        free = [lane for lane in self.lanes if lane not in [it.lane for it in self.running]]
        while ready and free and self.free_jobs() > 0:
            self.begin_one(ready.pop(0), free.pop(0), min(len(ready), len(free)))

    def free_jobs(self):
        """How many more processes may prove."""
        return self.jobs - sum(it.jobs for it in self.running)

    def begin_one(self, name, lane, others):
        """Begins a library, beside which so many others can begin: it gets what their shares leave of the free processes."""
        share = self.jobs // len(self.lanes)
        jobs = max(1, min(share, self.free_jobs()), min(MOST_JOBS, self.processors, self.free_jobs() - others * share))
        lane.take(name, self.below[name])
        words = [TOOLCHAIN, "lib", "--jobs", str(jobs)]
        self.running.append(Running(name, words, lane.crate(name), self.home / f"{name}.log", jobs, lane))
        self.waiting.remove(name)

    def take(self, it):
        """Takes what a crate left that has ended."""
        said = it.said()
        if it.child.returncode != 0:
            raise NotMade(f"{it.name} isn't proved: the toolchain ended with status {it.child.returncode}", said)
        self.keep(it)
        self.running.remove(it)
        self.functions += functions_in(said)
        if functions_in(said) and ADOPTED not in said:
            self.took[it.name] = it.seconds()

    def keep(self, it):
        """Moves what a library left to the checkout: all where it is proved, else the work."""
        if it.lane is not None and it.child.returncode == 0:
            it.lane.give(it.name)
            note_of(it.name).write_text(self.sources.note(it.name), encoding="utf-8")
            self.done.append(it.name)
            if functions_in(it.said()):
                self.lane_of[it.name] = it.lane
        elif it.lane is not None:
            it.lane.give(it.name, ["incremental"])

    def end_all(self):
        """Ends all that runs, and keeps what it proved."""
        for it in self.running:
            it.tell_to_end()
        for it in self.running:
            it.end()
        for it in self.running:
            self.keep(it)

    def functions_so_far(self):
        """How many functions were proved in this call."""
        return self.functions + sum(functions_in(it.said()) for it in self.running)

    def seconds_left(self):
        """How long the longest way from what isn't done takes, by the known times."""
        ran = {it.name: it.seconds() for it in self.running}
        left = [self.ways[name] - min(ran.get(name, 0), self.times[name]) for name in [*self.waiting, *ran]]
        return max(left, default=self.ways[PROGRAM])


def functions_in(said):
    """How many functions a proof says that it proved, so far or in all."""
    found = FUNCTIONS.findall(said)
    return int("".join(found[-1])) if found else 0


def longest_ways(below, times):
    """For the program and each library the known seconds of the longest way through it and those above, to the program."""
    ways = {PROGRAM: times[PROGRAM]}
    for name in reversed(list(below)):
        ways[name] = times[name] + max(way for other, way in ways.items() if other == PROGRAM or name in below[other])
    return ways
