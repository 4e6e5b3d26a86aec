"""What the readers of streams answer to a text, item by item. Written from docs/PROTOCOL.md.

Answers are shown as bytes: an item as its canonical spelling, a refusal as `<NUMBER>`, and `;` where the reader waits for more at
last. They don't depend on how the text is cut into pieces; behind it the input ends.
"""
from . import refusals, text

MOST_ITEMS = 4094
BEFORE_A_BLOCK = (b"add", b"replace", b"append", b"prepend", b"cas")
PLAIN_REPLIES = (b"STORED", b"DELETED", b"NOT_FOUND", b"ERROR")
ERRORS = (b"CLIENT_ERROR", b"SERVER_ERROR")
CLOSED = b"<9>"


def answers(kind, data):
    """The answers of a reader of `requests` or of `replies`."""
    return of_requests(data) if kind == "requests" else of_replies(data)


def of_requests(data):
    told = b""
    while data:
        try:
            request, size = text.request_at(data)
        except refusals.Refusal as refusal:
            told += mark(refusal)
            if refusal.name != "UnknownCommand":
                return told + CLOSED
            line, size = text.first_line(data)
            if text.words_of(line)[:1] and text.words_of(line)[0] in BEFORE_A_BLOCK:
                return told[:-1] + b" closes>" + CLOSED
        else:
            told += spelled(request)
            if isinstance(request, text.Quit):
                return told + CLOSED
        data = data[size:]
    return told + b";"


def of_replies(data):
    told = b""
    while data:
        try:
            reply, size = reply_at(data)
        except refusals.Refusal as refusal:
            told += mark(refusal)
            return (told[:-1] + b" closes>" if refusal.name == "UnknownCommand" else told) + CLOSED
        told += reply
        data = data[size:]
    return told + b";"


def mark(refusal):
    return f"<{refusal.number}>".encode()


def spelled(request):
    """The canonical spelling of a request."""
    if isinstance(request, text.Quit):
        return b"quit\r\n"
    if isinstance(request, text.Get):
        return b"get %s\r\n" % b" ".join(request.keys)
    noreply = b" noreply" if request.noreply else b""
    if isinstance(request, text.Delete):
        return b"delete %s%s\r\n" % (request.key, noreply)
    head = b"set %s %d %d %d%s\r\n" % (request.key, request.flags, request.exptime, len(request.data), noreply)
    return head + request.data + b"\r\n"


def reply_at(data):
    """The canonical spelling of the reply that these bytes begin with, and how many of them it takes; or the refusal it gets."""
    line, size = text.first_line(data)
    first, *others = text.words_of(line) or [b""]
    if first in ERRORS:
        return b"%s %s\r\n" % (first, line.lstrip(b" ")[len(first) + 1:]), size
    if first in (b"VALUE", b"END"):
        return items_at(data)
    if first not in PLAIN_REPLIES:
        raise refusals.text("UnknownCommand")
    check_alone(others)
    return first + b"\r\n", size


def items_at(data):
    """The same of a reply that is a list of items."""
    told, at = b"", 0
    for place in range(MOST_ITEMS + 1):
        line, size = text.first_line(data[at:])
        first, *others = text.words_of(line) or [b""]
        at += size
        if first == b"END":
            check_alone(others)
            return told + b"END\r\n", at
        if first != b"VALUE" or len(others) != 3 or place == MOST_ITEMS:
            raise refusals.text("WrongWords")
        item = item_at(others, data[at:])
        told += b"VALUE %s %d %d\r\n%s\r\n" % (others[0], item[0], len(item[1]), item[1])
        at += len(item[1]) + 2


def item_at(words, rest):
    """The flags and the block of an item, by the words of its line behind the first, and what stands behind that line."""
    text.check_keys(words[:1])
    flags = text.number(words[1], rb"[0-9]+", text.FLAGS)
    return flags, text.block(rest, text.size_of(words[2]))


def check_alone(others):
    if others:
        raise refusals.text("WrongWords")
