"""Reads the files of cases: what the program is given, and what it has to answer.

A file of cases is text in UTF-8, and holds one case or a few that belong together:

    # Why these cases are here.
    files: fleet.json

    == a delete goes to both pools from the first second of the migration on
    words: plan --config fleet.json --at 1000
    input: delete k\\r\\n
    output:
        phase both-read-old at 1000
        leg 0 old 7002
        leg 1 new 7103

A line that begins with `#` is a comment. `== NAME` begins a case; what stands before the first one holds for all of the
file, where a case doesn't say otherwise. The fields:

    words          the words after the program's name, with spaces between them; a word in single quotes may hold spaces
    files          names of files from `tests/cases/files` that the program finds in its working folder
    file NAME      another file that it finds there, in whose name stands what stands in a value, as `\\x20` for a space
    input          the standard input, empty where it isn't given
    output         the standard output, empty where it isn't given
    output json    the same, written as JSON in any layout: what is wanted is its compact form, keys in byte order, and a line end
    output added   the same again, but only what the output has beside the JSON of the standard input: of a transcript what
                   came of its script
    output picture a picture, of which the colours (`files/colours.txt`) are left out: they stand behind its first line
    checked        what `check` has to say of the wanted output: a run of its own, which ends with 3 where it isn't `accepted`
    played         what `run` has to tell beside the wanted output, which is a script: a run of its own
    cut            `everywhere`: the input isn't given whole, but in turn each of its beginnings, from none of its bytes to all but
                   the last one; each is a case, that wants the same answer
    faults         the standard error, empty where it isn't given; `...` is any text but the empty one, whose wording isn't ours
    status         0 where it isn't given
    slow           `yes` where the checked program, which isn't proved, takes more than a second of processor time for it, or for a
                   run that belongs to it, on a machine that has nothing else to do: `tests/run --quick` leaves it out

A value stands behind the colon, and is then taken without a line end; or in the lines below, indented by four spaces, each
of which ends with a line end. In a value stand `\\r \\n \\t \\\\ \\xNN` for bytes, `\\(TEXT*COUNT)` for so many times the text, and
`\\(TEXT*COUNT|BETWEEN)` for the same with a text between each two; in a repeated text `\\#` is how many stood before it. A
repeated text may hold another one.

`input of NAME` and `file X of NAME` take a file of `tests/cases/files` and change it: for each pair of lines `- OLD` and
`+ NEW` in the lines below, OLD has to stand there once and NEW takes its place. A `+` alone puts its text at the end. A
line that begins with two spaces goes on with OLD or NEW, behind a line end.
"""
import json
import pathlib
import re
import shlex

CASES = pathlib.Path(__file__).resolve().parent / "cases"
SHARED = CASES / "files"
ANY = object()

FIELD = re.compile(r"(words|files|file \S+(?: of \S+)?|input(?: of \S+)?|output(?: json| added| picture)?|checked|played|cut|faults|status|slow):(?: (.*))?")
INNER = r"\\\([^\n]*?\*\d+(?:\|[^\n]*?)?\)"
PIECE = re.compile(rf"\\\(((?:{INNER}|[^\n])*?)\*(\d+)(?:\|([^\n]*?))?\)" + r"|\\x([0-9a-fA-F]{2})|\\(.)")
LETTERS = {"r": "\r", "n": "\n", "t": "\t", "\\": "\\"}


class BadCase(Exception):
    """A file of cases that can't be read: where, and why."""


class Case:
    """What the program is given, and what it has to answer. `faults` may be ANY."""

    def __init__(self, name, words, files, stdin, status, stdout, stderr):
        self.name = name
        self.words = words
        self.files = files
        self.stdin = stdin
        self.status = status
        self.stdout = stdout
        self.stderr = stderr


def unescaped(text, index=None):
    """A text with what its escapes stand for. One character is one byte on the way, so that any byte can stand in it."""

    def meant(piece):
        repeated, count, between, number, letter = piece.groups()
        if repeated is not None and "\\#" in repeated:
            return unescaped(between or "").join(unescaped(repeated, place) for place in range(int(count)))
        if repeated is not None:
            return unescaped(between or "").join([unescaped(repeated)] * int(count))
        if number is not None:
            return chr(int(number, 16))
        if letter == "#" and index is not None:
            return str(index)
        if letter in LETTERS:
            return LETTERS[letter]
        raise BadCase(f"no byte is written \\{letter}")

    return PIECE.sub(meant, text)


def expanded(text):
    """The bytes that a value stands for."""
    return unescaped(text.encode().decode("latin-1")).encode("latin-1")


def words_of(text):
    """The words of a command line, each with its own escapes."""
    reader = shlex.shlex(text, posix=True)
    reader.whitespace_split, reader.escape, reader.quotes, reader.commenters = True, "", "'", ""
    return [expanded(word) for word in reader]


def compact(value):
    """A value as JSON in its compact form, the keys of each object in byte order, with a line end."""
    return json.dumps(value, sort_keys=True, separators=(",", ":"), ensure_ascii=False).encode() + b"\n"


def shared(name):
    try:
        return (SHARED / name).read_bytes()
    except OSError as error:
        raise BadCase(f"there is no file {name}") from error


def pieces_of(lines):
    """The sign and the text of each piece of a change, whose further lines begin with two spaces."""
    pieces = []
    for line in lines:
        if line.startswith("  ") and pieces:
            pieces[-1][1] += "\n" + line[2:]
        else:
            pieces.append([line[:1], line[2:]])
    return pieces


def changed(name, lines):
    """A shared file with pieces that take the place of others."""
    data = shared(name)
    old = None
    for sign, written in pieces_of(lines):
        text = expanded(written)
        if sign == "-" and old is None:
            if data.count(text) != 1:
                raise BadCase(f"{name} has {data.count(text)} times: {written}")
            old = text
        elif sign == "+":
            data = data + text if old is None else data.replace(old, text)
            old = None
        else:
            raise BadCase(f"a change of {name} is a line '- OLD', then a line '+ NEW': {sign} {written}")
    if old is not None:
        raise BadCase(f"a change of {name} lacks its '+' line")
    return data


def value(given, lines):
    """The bytes of a field that stand behind the colon, or in the lines below it."""
    if given is not None and lines:
        raise BadCase(f"a value stands behind the colon or below it, not both: {given}")
    return expanded(given) if given is not None else b"".join(expanded(line) + b"\n" for line in lines)


def with_members(text, more):
    """What a transcript has beside its script, put to it: JSON in its compact form."""
    return compact({**json.loads(text), **json.loads(more)})


def with_colours(picture):
    """A picture with its colours behind its first line."""
    begun, end, rest = picture.partition(b"\n")
    return begun + end + shared("colours.txt") + rest


def checked(case, told):
    """The check of the transcript that a case wants to be written."""
    status = 0 if told.endswith(b"\naccepted\n") else 3
    return Case(f"{case.name}, and is checked", ["check"], {}, case.stdout, status, told, b"")


def played(case, told):
    """The run of the script that a case wants to be written."""
    return Case(f"{case.name}, and is run", ["run"], {}, case.stdout, 0, with_members(case.stdout, told), b"")


def case_of(name, fields):
    """The case that these fields say: from the name of each, what stands behind its colon and the lines below."""
    words, files, stdin, stdout, stderr, status, added = [], {}, b"", b"", b"", 0, None
    if "words" not in fields:
        raise BadCase("it has no words")
    for field, (given, lines) in fields.items():
        kind, *rest = field.split(" ")
        if field == "words":
            words = words_of(given or "")
        elif field == "files":
            files.update({shared_name: shared(shared_name) for shared_name in (given or "").split()})
        elif kind == "file":
            files[expanded(rest[0]).decode()] = changed(rest[2], lines) if len(rest) == 3 else value(given, lines)
        elif kind == "input":
            stdin = changed(rest[1], lines) if rest else value(given, lines)
        elif field == "output json":
            stdout = compact(json.loads(value(given, lines)))
        elif field == "output added":
            added = value(given, lines)
        elif field == "output picture":
            stdout = with_colours(value(given, lines))
        elif field == "output":
            stdout = value(given, lines)
        elif field == "faults":
            stderr = ANY if given == "..." else value(given, lines)
        elif field == "status":
            status = int(given)
    if added is not None:
        stdout = with_members(stdin, added)
    return Case(name, words, files, stdin, status, stdout, stderr)


def cuts(case, where):
    """A case for each beginning of the input of one."""
    if where != ("everywhere", []):
        raise BadCase("an input is cut everywhere")
    for size in range(len(case.stdin)):
        name = f"{case.name}, after {size} bytes"
        yield Case(name, case.words, case.files, case.stdin[:size], case.status, case.stdout, case.stderr)


def sections(lines):
    """The head of a file and its cases: of each the name, None for the head, and its fields."""
    found = [(None, {})]
    at = None
    for number, line in enumerate(lines, 1):
        field = FIELD.fullmatch(line)
        if line.startswith("== "):
            if line[3:] in [name for name, _ in found]:
                raise BadCase(f"line {number}: two cases are named: {line[3:]}")
            found.append((line[3:], {}))
            at = None
        elif field:
            if field[1] in found[-1][1]:
                raise BadCase(f"line {number}: {field[1]} stands there twice")
            at = []
            found[-1][1][field[1]] = field[2], at
        elif line.startswith("    ") and at is not None:
            at.append(line[4:])
        elif line and not line.startswith("#"):
            raise BadCase(f"line {number} is no field: {line}")
    return found


def slot(field):
    """What a field is about: a case's own takes the place of the head's."""
    return re.sub(r" of \S+$| json$| added$| picture$", "", field)


def cases_in(path, word, left_out):
    """The cases of one file whose names contain a word, in order. Where a list of those that are left out is given, the slow ones
    are told to it instead."""
    try:
        (_, head), *rest = sections(path.read_text(encoding="utf-8").split("\n"))
        if not rest:
            raise BadCase("it holds no case")
        for short_name, own in rest:
            said = {slot(field) for field in own}
            fields = {**{field: it for field, it in head.items() if slot(field) not in said}, **own}
            name = f"{path.relative_to(CASES).with_suffix('')}: {short_name}"
            if word in name and left_out is not None and "slow" in fields:
                left_out.append(name)
            elif word in name:
                case = case_of(name, fields)
                yield from cuts(case, fields["cut"]) if "cut" in fields else [case]
                if "checked" in fields:
                    yield checked(case, value(*fields["checked"]))
                if "played" in fields:
                    yield played(case, value(*fields["played"]))
    except (BadCase, ValueError) as error:
        raise BadCase(f"{path.relative_to(CASES)}: {error}") from error


def all_cases(word, left_out=None):
    """Every case whose name contains a word, in the order of folders, files and places; or all but the slow ones, whose names are
    told to a list."""
    for path in sorted(CASES.glob("*/*.case")):
        yield from cases_in(path, word, left_out)
