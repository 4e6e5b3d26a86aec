"""What the program says of itself: its calls for help, read into their parts. The manual and the completion are made of them."""
import dataclasses
import re
import subprocess

ROW = re.compile(r" {2,}(?P<words>\S.*?)(?: {2,}(?P<says>\S.*))?")
STATUS = re.compile(r"(\d+) (.+?)(?=, \d+ |\.$|\.\n|\.\Z)", re.DOTALL)
TABLES = ("Arguments", "Commands", "Options")


class BadHelp(Exception):
    """A help that isn't laid out as this reads it: what is odd."""


@dataclasses.dataclass
class Row:
    """A line of a table: an option, an argument or a command, and what is said of it."""

    words: str
    says: str

    def flags(self):
        """The words of an option by themselves: `-h, --help` are two."""
        return re.findall(r"(?:^|\s)(--?[A-Za-z][\w-]*)", self.words)

    def value(self):
        """What an option's value is called, or None where it takes none."""
        found = re.search(r"<([^<>]+)>", self.words)
        return found and found[1]


@dataclasses.dataclass
class Help:
    """A call for help of the program or of one of its commands."""

    about: str
    usages: list = dataclasses.field(default_factory=list)
    tables: dict = dataclasses.field(default_factory=lambda: {name: [] for name in TABLES})
    notes: list = dataclasses.field(default_factory=list)  # paragraphs, each a list of sentences by line
    statuses: list = dataclasses.field(default_factory=list)  # pairs of a number and its meaning
    faults: str = ""
    examples: list = dataclasses.field(default_factory=list)


def rows_of(lines):
    """The rows of a table. A line that stands further in than the last one's words goes on with what that said."""
    rows = []
    for line in lines:
        found = ROW.fullmatch(line)
        if not found:
            raise BadHelp(f"no row of a table: {line!r}")
        if rows and len(line) - len(line.lstrip()) > 10 and not found["says"]:
            rows[-1].says = f"{rows[-1].says} {found['words']}".strip()
        else:
            rows.append(Row(found["words"], found["says"] or ""))
    return rows


def read_statuses(text, it):
    """Reads what the statuses mean, and what is said of faults behind that."""
    said, _, it.faults = text.removeprefix("Status: ").partition(".\n")
    it.statuses = STATUS.findall(f"{said}.")
    if not it.statuses or ", ".join(" ".join(pair) for pair in it.statuses) != said.rstrip("."):
        raise BadHelp(f"statuses: {text!r}")


def help_of(text):
    """The parts of a help's text."""
    first, *blocks = text.strip("\n").split("\n\n")
    it = Help(about=" ".join(first.split()))
    for block in blocks:
        head, _, below = block.partition("\n")
        table = head.removesuffix(":")
        if block.startswith("Usage:"):
            it.usages = [line.strip() for line in block.removeprefix("Usage:").splitlines()]
        elif table in TABLES:
            it.tables[table] = rows_of(below.splitlines())
        elif block.startswith("Status:"):
            read_statuses(block, it)
        elif table in ("Example", "Examples"):
            it.examples = [line.strip() for line in below.splitlines()]
        else:
            it.notes.append(block)
    if not (it.usages and it.statuses and it.examples):
        raise BadHelp(f"no usage, status or example behind {it.about!r}")
    return it


def asked(program, *words):
    """The text of a call for help, which goes to the standard error."""
    ran = subprocess.run([program, *words, "--help"], capture_output=True, text=True)
    if ran.returncode != 2 or ran.stdout:
        raise BadHelp(f"{' '.join(words)} --help: status {ran.returncode}, {ran.stdout!r}")
    return ran.stderr


def all_helps(program):
    """The help of the program, and that of each of its commands by its name, in their order."""
    whole = help_of(asked(program))
    names = [row.words for row in whole.tables["Commands"] if row.words != "help"]
    if not names:
        raise BadHelp("no commands")
    return whole, {name: help_of(asked(program, name)) for name in names}
