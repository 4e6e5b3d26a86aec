"""Reads mutants: edits that break a promise, each with its name and a word on what it breaks.

A file SOURCE.edits holds the mutants of one source file, and says which one that is in its first line:

    file: src/hash.rt

    == fnv_name_gives_sum: the name fnv1a32 gives the other hash
    old: "fnv1a32" => Some(NamedHash::Fnv),
    new: "fnv1a32" => Some(NamedHash::Sum),

`== NAME: WHAT IT BREAKS` begins a mutant. Below stand its changes in order: each `old:` is a text that has to stand in the file
exactly once, as the changes before left it, and the `new:` behind it takes its place. A text is one line, of which nothing is
left out: it begins behind the space, and spaces at its end count. `new:` alone takes the old text out. A mutant that changes a
further file names that in a line `file:` of its own, before those changes; the next mutant is of the first file again. Mutants
of running programs have lines `case:` too, and those that the gate tries a line `tried: by the gate`. Empty lines stand between mutants; any other line is a fault.

A file NAME.edit holds one mutant of that name, and in its first line behind `# ` what that breaks; then the line `file:`, and the
changes as above. The toolchain reads such files, and leaves the first line out.
"""
import collections
import pathlib
import re

ROOT = pathlib.Path(__file__).resolve().parent.parent
HEAD = re.compile(r"== (\w+)(?:: +(.*))?")
FIELD = re.compile(r"(file|case|tried|old|new):(?: (.*))?")
BY_GATE = "by the gate"


class BadEdit(Exception):
    """An edit that can't be read, or doesn't apply: why."""


class Edit:
    """A mutant: the file in which it stands, its name, what it breaks, whether it is marked for the gate, its cases, and its changes
    (file, old text, new text)."""

    def __init__(self, place, name, breaks):
        self.place, self.name, self.breaks = place, name, breaks
        self.is_marked = False
        self.cases, self.changes = [], []

    def source(self):
        """The file that it changes first."""
        return self.changes[0][0]

    def texts(self, folder, texts):
        """The new texts of the files that it changes, by their paths: of these texts, or else of the files below a folder."""
        made = {}
        for path, old, new in self.changes:
            if path not in made:
                made[path] = texts[path] if path in texts else text_at(folder, path)
            if (count := made[path].count(old)) != 1:
                raise BadEdit(f"{path} {'has more than once' if count else 'lacks'}: {old}")
            made[path] = made[path].replace(old, new)
        return made


def text_at(folder, path):
    """The text of a file below a folder."""
    try:
        return (folder / path).read_text(encoding="utf-8")
    except OSError as fault:
        raise BadEdit(f"there is no file {path}") from fault


def read_edits(place):
    """The edits that stand in a file, in order."""
    is_single = place.suffix == ".edit"
    edits = [Edit(place, place.stem, "")] if is_single else []
    source = path = old = None
    for number, line in enumerate([*place.read_text(encoding="utf-8").split("\n"), ""], start=1):
        head, field = HEAD.fullmatch(line), FIELD.fullmatch(line)
        word, text = (field[1], field[2] or "") if field else (None, "")
        if old is not None and word != "new":
            raise BadEdit(f"line {number}: a line `new:` has to stand behind `old:`")
        if is_single and line.startswith("# "):
            edits[0].breaks = line.removeprefix("# ").strip()
        elif head and not is_single:
            edits.append(Edit(place, head[1], (head[2] or "").strip()))
            path = source
        elif word == "file":
            path = text
            source = source if edits else path
        elif word is None and line.strip():
            raise BadEdit(f"line {number}: nothing of an edit: {line}")
        elif word and not edits:
            raise BadEdit(f"line {number}: `{word}:` stands under no name")
        elif word == "case":
            edits[-1].cases.append(text)
        elif word == "tried" and text == BY_GATE:
            edits[-1].is_marked = True
        elif word == "old" and path and text:
            old = text
        elif word == "new" and old not in (None, text):
            edits[-1].changes.append((path, old, text))
            old = None
        elif word:
            raise BadEdit(f"line {number}: `{word}:` {'gives no other text' if word == 'new' else 'lacks a file or a text'}")
    if empty := [edit.name for edit in edits if not edit.changes]:
        raise BadEdit(f"{empty[0]} changes nothing")
    return edits


def files_below(folder):
    """The files in a folder and in those inside it, in order."""
    return sorted(file for file in folder.glob("**/*") if file.is_file())


def read_all(places):
    """The edits that stand in files, and what is wrong with how they are written, a line each."""
    edits, wrong = [], []
    for place in places:
        try:
            edits += read_edits(place)
        except BadEdit as fault:
            wrong.append(f"{place.relative_to(ROOT)}: {fault}")
    counts = collections.Counter(edit.name for edit in edits)
    wrong += [f"{name} is the name of {count} mutants" for name, count in counts.items() if count > 1]
    wrong += [f"{edit.name} lacks a word on what it breaks" for edit in edits if not edit.breaks]
    return edits, wrong


def misplaced(edit, top, front):
    """What is wrong with where an edit stands: below the folder `top` in a file SOURCE.edits, of which SOURCE is the path of what
    it changes first, without `front` and the suffix."""
    wanted = pathlib.PurePath(re.sub(front, "", edit.source())).with_suffix(".edits")
    return [] if edit.place.relative_to(top) == wanted else [f"{edit.name} changes {edit.source()}, and belongs into {wanted}"]
