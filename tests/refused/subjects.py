"""What is refused memory: proved tests, one at a time, and commands of the program. Each says what is wrong with a run."""
import pathlib
import re
import subprocess

ROOT = pathlib.Path(__file__).resolve().parent.parent.parent
EXAMPLES = ROOT / "examples"
NAMED = re.compile(r"\bfn (refused_memory_\w+)\(")

# What a command says where memory is refused to it, by docs/FORMATS.md: to the program, or to the layer that reads.
MEMORY = b"migctl: memory\n"
READING = b"migctl: plan 13 OutOfMemory\n"
REQUEST = b"migctl: text 10 OutOfMemory\n"
NODE = b"migctl: node 2 OutOfMemory\n"


class Missing(Exception):
    """What is to be run isn't there, or isn't what the sources say: why."""


class Test:
    """A test of a crate, by its name. It marks where its calls begin and end (`refuse_memory` and `grant_memory` of
    mr_test_support), and has to pass whichever of the requests between was refused."""

    marked = True
    folder = "/"
    stdin = b""

    def __init__(self, name, program, path):
        self.name = name
        self.words = [program, path]

    def wrong(self, ran):
        """What is wrong with a run; nothing where nothing is."""
        return "" if ran.status == 0 else ran.said()


class Command:
    """A command of the program, over the examples. Its first run is refused nothing. In each other one it answers the same, or
    it says by one of these lines that it is out of memory, and nothing else."""

    marked = False
    folder = EXAMPLES

    def __init__(self, program, words, lines, given="", stdin=b""):
        self.name = f"migctl {words}{f' of {given}' if given else ''}"
        self.words = [program, *words.split()]
        self.stdin = stdin
        self.lines = lines
        self.ample = None

    def wrong(self, ran):
        """What is wrong with a run; nothing where nothing is."""
        answer = (ran.status, ran.stdout, ran.stderr)
        if self.ample is None:
            self.ample = answer
            return "" if bool(ran.stdout) != bool(ran.stderr) else ran.said()
        told = (ran.status, ran.stdout) == (1, b"") and ran.stderr in self.lines
        return "" if told or answer == self.ample else ran.said()


def named_in(crate):
    """The tests of a crate whose names begin so, by its sources: the crate's name and that of the function."""
    texts = (it.read_text(encoding="utf-8") for it in (crate / "src").rglob("*.rt"))
    return {f"{crate.name} {name}" for text in texts for name in NAMED.findall(text)}


def tests(word, folder=None):
    """The tests whose names contain a word, out of the executables that were built of the crates, or of those in a folder."""
    for crate in sorted((ROOT / "crates").iterdir()):
        names = named_in(crate)
        if not any(word in name for name in names):
            continue
        program = (pathlib.Path(folder) if folder else crate / "out") / f"{crate.name}_tests"
        if not program.is_file():
            raise Missing(f"{program} isn't there: .ci/run leaves it, and so does `rt test` in crates/{crate.name}")
        listed = subprocess.run([program, "--list"], capture_output=True, text=True).stdout
        paths = sorted(line.removesuffix(": test") for line in listed.splitlines() if "::refused_memory_" in line)
        found = {f"{crate.name} {path.rsplit('::', 1)[1]}": path for path in paths}
        if found.keys() != names or len(paths) != len(names):
            raise Missing(f"{program} has other tests than the sources: `rt test` in crates/{crate.name} makes it anew")
        yield from (Test(name, program, path) for name, path in found.items() if word in name)


def changed(text, part, new):
    """A text with another part in the place of one that stands in it once."""
    if text.count(part) != 1:
        raise Missing(f"{part!r} doesn't stand once in an example")
    return text.replace(part, new)


def commands(program):
    """Each command that computes, on each example, and the services as far as they go without a client."""
    config = (MEMORY, READING)
    for given, request in (("a get", b"get k b k\r\n"), ("a set", b"set k 5 0 4\r\na\r\nb\r\n"), ("a delete", b"delete k\r\n")):
        yield Command(program, "plan --config fleet.json --at 1000", (*config, REQUEST), given, request)
    yield Command(program, "timeline --config fleet.json", config)
    yield Command(program, "timeline --config fleet.json --readings 999,1100", config)
    yield Command(program, "timeline --config /dev/stdin", config, "no JSON", b"{")
    for script in sorted(it.name for it in EXAMPLES.glob("*.json") if ".transcript." not in it.name and it.name != "fleet.json"):
        yield Command(program, f"run {script}", config)
        yield Command(program, f"upgrade {script}", config)
    for transcript in sorted(it.name for it in EXAMPLES.glob("*.transcript.json")):
        yield Command(program, f"check {transcript}", config)
        yield Command(program, f"draw {transcript}", config)
    script = (EXAMPLES / "first-get.json").read_bytes()
    safe = (EXAMPLES / "first-get.transcript.json").read_bytes()
    stale = b'{"stale":{"delete":[0,0,0],"get":[0,0,0],"key":"k"}}'
    yield Command(program, "run", config, "the input", script)
    yield Command(program, "upgrade", config, "the input", script)
    yield Command(program, "run", config, "a refused event", changed(script, b'"message":0', b'"message":7'))
    yield Command(program, "check", config, "another verdict", changed(safe, b'"verdict":"safe"', b'"verdict":' + stale))
    yield Command(program, "explain plan 5", (MEMORY,))
    yield Command(program, "--version", (MEMORY,))
    yield Command(program, "node --listen 127.0.0.1:0 --clients 0", (MEMORY, NODE))
    yield Command(program, "proxy --config fleet.json --listen 127.0.0.1:0 --clients 0", config)
    yield Command(program, "proxy --config fleet.json --listen 127.0.0.1:0 --metrics 127.0.0.1:0 --loops 2 --clients 0", config)
