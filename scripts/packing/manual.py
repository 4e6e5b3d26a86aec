"""The manual page migctl(1), in roff, of what the program says of itself."""
import re
import textwrap

SHARE = "/usr/share/doc/migctl"
# Where the package has what a help names by its path in the repository.
PLACES = ((re.compile(r"\bdocs/(?=[A-Z]+\.md\b)"), f"{SHARE}/"), (re.compile(r"\bexamples/"), f"{SHARE}/examples/"))
FILES = (
    ("/etc/default/migctl-proxy-NAME", "what the unit migctl-proxy@NAME.service is started with"),
    ("/etc/default/migctl-node-NAME", "what the unit migctl-node@NAME.service is started with"),
    ("/usr/lib/systemd/system/migctl-proxy@.service", "the unit of a proxy, for any NAME"),
    ("/usr/lib/systemd/system/migctl-node@.service", "the unit of a node, for any NAME"),
    (SHARE, "how a migration is run (OPERATING.md), and the formats, the protocol and the metrics"),
    (f"{SHARE}/examples", "configurations, scripts, files for /etc, and what Prometheus and Grafana are given"),
)
SEE_ALSO = ("memcached(1)", "prometheus(1)", "systemd.unit(5)", "chronyc(1)")
WIDTH = 78  # of a line of roff
SENTENCE_END = re.compile(r"(?<=[.!?]) (?=[A-Z\\])")
ESCAPES = {"\\": r"\e", "-": r"\-", "'": r"\(aq", "`": r"\(ga", "^": r"\(ha", "~": r"\(ti", '"': r"\(dq"}


def placed(text):
    """A text with each path as the package has it."""
    for path, place in PLACES:
        text = path.sub(place, text)
    return text


def plain(text):
    """A text as roff shows it: no character of it says anything to roff."""
    return "".join(ESCAPES.get(it, it) for it in placed(text))


def lines(text):
    """Lines of a text in roff, each sentence on lines of its own. None of them is taken for a request."""
    sentences = SENTENCE_END.split(" ".join(plain(text).split()))
    wrapped = (line for it in sentences for line in textwrap.wrap(it, WIDTH, break_long_words=False, break_on_hyphens=False))
    return [rf"\&{line}" if line.startswith(".") else line for line in wrapped]


def bold(text):
    return rf"\fB{plain(text)}\fR"


def typed(text):
    """Words of an option or a usage: what stands in brackets is to be replaced or may be left out, all else is typed as it is."""
    parts = re.split(r"([<\[][^<>\[\]]+[>\]])", text)
    shown = (rf"{part[0]}\fI{plain(part[1:-1])}\fR{part[-1]}" if part[0] in "<[" else bold(part) for part in parts if part)
    return "".join(shown)


def usages(texts):
    """Usages, each on a line of its own."""
    return "\n.br\n".join(map(typed, texts)).splitlines()


def listed(rows):
    """Pairs of a term, which is roff already, and what is said of it."""
    return [line for term, says in rows for line in (".TP", term, *lines(says))]


def paragraphs(notes):
    return [line for note in notes for line in (".PP", *lines(note))]


def examples(texts):
    shown = [plain(text) for text in texts]
    return [".PP", "Example:", ".PP", ".EX", *(f"  {text}" for text in shown), ".EE"]


def command(name, it):
    """The part of the page on one command."""
    meanings = ", ".join(f"{number} {meaning}" for number, meaning in it.statuses)
    return [
        f".SS {plain(name)}",
        *lines(f"{it.about}."),
        ".PP",
        *usages(it.usages),
        *listed((typed(row.words), row.says) for table in ("Arguments", "Options") for row in it.tables[table]),
        *paragraphs([*it.notes, f"Status: {meanings}."]),
        *examples(it.examples),
    ]


def see_also():
    """The pages of others, each with the section that it stands in."""
    shown = [re.sub(r"(.+)(\(\d\))", lambda it: bold(it[1]) + it[2], name) for name in SEE_ALSO]
    return ",\n".join(shown).splitlines()


def page(whole, commands, version, day):
    """The page, of the help of the program and that of each command; the day is that of its footer."""
    made = [
        r".\" Made by scripts/package of what the program says of itself.",
        f'.TH MIGCTL 1 "{day}" "migctl {version}" "User Commands"',
        ".nh",
        ".ad l",
        ".SH NAME",
        rf"migctl \- {plain(whole.about[0].lower() + whole.about[1:])}",
        ".SH SYNOPSIS",
        *usages([*(text for it in commands.values() for text in it.usages), "migctl <command> --help", "migctl --version"]),
        ".SH DESCRIPTION",
        *lines(f"{whole.about}."),
        *paragraphs(whole.notes),
        *listed((typed(row.words), row.says) for row in whole.tables["Options"]),
        *examples(whole.examples),
        ".SH COMMANDS",
        *(line for name, it in commands.items() for line in command(name, it)),
        ".SH EXIT STATUS",
        *listed((bold(number), meaning) for number, meaning in whole.statuses),
        *paragraphs([whole.faults]),
        ".SH FILES",
        *listed((rf"\fI{plain(path)}\fR", says) for path, says in FILES),
        ".SH SEE ALSO",
        *see_also(),
    ]
    return "\n".join(made) + "\n"
