"""The changelog of a package, in Debian's form, of CHANGELOG.md."""
import datetime
import email.utils
import re
import textwrap

HEADING = re.compile(r"^## (\d+\.\d+\.\d+), (\d{4}-\d{2}-\d{2})$", re.MULTILINE)


class NoChanges(Exception):
    """CHANGELOG.md doesn't begin with the version of the program: what it has."""


def day_of(text):
    return datetime.datetime.strptime(text, "%Y-%m-%d").replace(tzinfo=datetime.timezone.utc)


def versions(text):
    """The versions of a changelog, the newest first: each with its day and what changed."""
    parts = HEADING.split(text)[1:]
    found = list(zip(parts[::3], map(day_of, parts[1::3]), parts[2::3]))
    if not found:
        raise NoChanges("CHANGELOG.md has no version")
    return found


def plain(text):
    """A text without the marks of Markdown, in which a link is what it shows."""
    return re.sub(r"\[([^\]]+)\]\([^)]*\)", r"\1", text).replace("**", "").replace("`", "")


def changes(text):
    """The lines that say what changed, each change below a star."""
    points = re.split(r"^- ", text.split("\n## ")[0], flags=re.MULTILINE)[1:]
    for point in points:
        words = " ".join(plain(point).split())
        yield from textwrap.wrap(words, 78, initial_indent="  * ", subsequent_indent="    ", break_on_hyphens=False)


def debian(package, text, maintainer, version):
    """The changelog in Debian's form. Its newest version has to be that of the program; the package's may say more."""
    made = []
    told = versions(text)
    if not version.startswith(told[0][0]):
        raise NoChanges(f"the newest version of CHANGELOG.md is {told[0][0]}, and not {version}")
    for at, (number, day, what) in enumerate(told):
        earlier = sum(other == day for _, other, _ in told[at + 1 :])  # versions of this day: each is to be later than the one before
        made += [f"{package} ({version if at == 0 else number}) unstable; urgency=medium", "", *changes(what), ""]
        made += [f" -- {maintainer}  {email.utils.format_datetime(day + datetime.timedelta(minutes=earlier))}", ""]
    return "\n".join(made)
