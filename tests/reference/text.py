"""Requests of memcached's text protocol, and the first one of an input. Written from docs/PROTOCOL.md."""
import re
from typing import NamedTuple, Tuple

from . import refusals

MOST_OF_LINE = 8192
MOST_OF_BLOCK = 1_048_576
KEY = re.compile(rb"[!-~\x80-\xff]{1,250}")  # no space, no control character
FLAGS = range(2**32)
EXPTIMES = range(-(2**63), 2**63)
BYTES = range(2**64)


class Get(NamedTuple):
    keys: Tuple[bytes, ...]


class Set(NamedTuple):
    key: bytes
    flags: int
    exptime: int
    data: bytes
    noreply: bool


class Delete(NamedTuple):
    key: bytes
    noreply: bool


class Quit(NamedTuple):
    pass


def is_key(word):
    return KEY.fullmatch(word) is not None


def are_keys(words):
    """Whether these are the keys of a get: one at least, each of them a key, and the get's canonical line isn't too long."""
    return bool(words) and all(map(is_key, words)) and len(b" ".join((b"get", *words))) <= MOST_OF_LINE


def first_request(data):
    """The request that an input begins with, or the refusal that it gets. The input ends behind these bytes."""
    request, _ = request_at(data)
    return request


def request_at(data):
    """The same, and how many bytes it takes."""
    line, behind = first_line(data)
    words = words_of(line)
    if not words or words[0] not in READERS:
        raise refusals.text("UnknownCommand")
    request = READERS[words[0]](words[1:], data[behind:])
    return request, behind + (len(request.data) + 2 if isinstance(request, Set) else 0)


def first_line(data):
    """The line that these bytes begin with, without its end, and how many bytes it takes with it."""
    end = data.find(b"\n")
    if end < 0:
        raise refusals.text("LineTooLong" if len(data) >= MOST_OF_LINE + 2 else "Truncated")
    line = data[:end]
    if line.endswith(b"\r"):
        line = line[:-1]
    if len(line) > MOST_OF_LINE:
        raise refusals.text("LineTooLong")
    return line, end + 1


def words_of(line):
    return [word for word in line.split(b" ") if word]


def read_quit(words, _):
    if words:
        raise refusals.text("WrongWords")
    return Quit()


def read_get(words, _):
    if not words:
        raise refusals.text("WrongWords")
    check_keys(words)
    return Get(tuple(words))


def read_delete(words, _):
    if not words or words[1:] not in ([], [b"0"], [b"noreply"], [b"0", b"noreply"]):
        raise refusals.text("WrongWords")
    check_keys(words[:1])
    return Delete(words[0], b"noreply" in words[1:])


def read_set(words, rest):
    if len(words) not in (4, 5) or words[4:] not in ([], [b"noreply"]):
        raise refusals.text("WrongWords")
    check_keys(words[:1])
    flags = number(words[1], rb"[0-9]+", FLAGS)
    exptime = number(words[2], rb"-?[0-9]+", EXPTIMES)
    return Set(words[0], flags, exptime, block(rest, size_of(words[3])), len(words) == 5)


def size_of(word):
    """How many bytes a block has by a word of its line."""
    size = number(word, rb"[0-9]+", BYTES)
    if size > MOST_OF_BLOCK:
        raise refusals.text("DataTooLong")
    return size


def check_keys(words):
    if not all(map(is_key, words)):
        raise refusals.text("BadKey")


def number(word, spelling, allowed):
    """What a word says in decimal. It may have many leading zeros, which `int` refuses where they are thousands."""
    if not re.fullmatch(spelling, word):
        raise refusals.text("BadNumber")
    digits = word.lstrip(b"-").lstrip(b"0")
    size = int(digits or b"0") if len(digits) <= 20 else 10**20
    value = -size if word.startswith(b"-") else size
    if value not in allowed:
        raise refusals.text("BadNumber")
    return value


def block(rest, size):
    """The block of so many bytes at the front of these, which a carriage return and a line feed have to follow."""
    behind = rest[size:size + 2]
    if not b"\r\n".startswith(behind):
        raise refusals.text("BadDataEnd")
    if len(behind) < 2:
        raise refusals.text("Truncated")
    return rest[:size]


READERS = {b"get": read_get, b"set": read_set, b"delete": read_delete, b"quit": read_quit}
