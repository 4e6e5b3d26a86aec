"""What a client of a run as streams of bytes may be told, and the script of the world that comes to the same.

Written from docs/PROTOCOL.md and docs/FORMATS.md.
"""
from . import refusals, streams, text

FAILS = (b"SERVER_ERROR",)
REFUSED = (b"ERROR", b"CLIENT_ERROR")
KINDS = {"items": "items", b"STORED": "stored", b"DELETED": "deleted", b"NOT_FOUND": "not_found"}


class Wrong(Exception):
    """Bytes that a client can't be told."""


def inputs_of(sent):
    """What the bytes of a client ask, in order: requests, and None for each refused text."""
    found = []
    while sent:
        try:
            request, size = text.request_at(sent)
        except refusals.Refusal as refusal:
            if refusal.name == "Truncated":
                return found
            found.append(None)
            line, size = text.first_line(sent) if refusal.name == "UnknownCommand" else (b"", 0)
            if size == 0 or (text.words_of(line)[:1] or [b""])[0] in streams.BEFORE_A_BLOCK:
                return found
        else:
            if isinstance(request, text.Quit):
                return found
            found.append(request)
        sent = sent[size:]
    return found


def requests_of(sent):
    return [request for request in inputs_of(sent) if request is not None]


def is_silent(request):
    return isinstance(request, (text.Set, text.Delete)) and request.noreply


def replies_in(sent, heard, values):
    """The replies that a client was told whole, each with its request, or Wrong. They are a beginning of the replies to what it sent."""
    told = []
    for request in inputs_of(sent):
        if request is not None and is_silent(request):
            continue
        if not heard:
            return told
        try:
            reply, size = streams.reply_at(heard)
        except refusals.Refusal as refusal:
            if refusal.name != "Truncated" or not begins_one(request, heard):
                raise Wrong(f"{heard!r} to {request}") from refusal
            return told
        if reply != heard[:size] or not answers(request, reply, values):
            raise Wrong(f"{reply!r} to {request}")
        told.append((request, reply))
        heard = heard[size:]
    if heard:
        raise Wrong(f"{heard!r} to nothing")
    return told


def first_words(request):
    if request is None:
        return REFUSED
    if isinstance(request, text.Get):
        return (b"VALUE", b"END", *FAILS)
    return ((b"STORED",) if isinstance(request, text.Set) else (b"DELETED", b"NOT_FOUND")) + FAILS


def begins_one(request, cut):
    """Whether the cut bytes may begin a reply to the request."""
    return any(word.startswith(cut[: len(word)]) for word in first_words(request))


def answers(request, reply, values):
    """Whether a reply may be one to the request: by its first word, and by its items, each of which somebody sent or held."""
    if not begins_one(request, reply):
        return False
    keys = list(request.keys) if isinstance(request, text.Get) else []
    for key, flags, data in items_in(reply):
        if key not in keys or (flags, data) not in values[key]:
            return False
        del keys[: keys.index(key) + 1]
    return True


def items_in(reply):
    """The items of a reply, as keys, flags and data."""
    at = 0
    while reply.startswith(b"VALUE ", at):
        end = reply.index(b"\r\n", at)
        _, key, flags, size = reply[at:end].split(b" ")
        data = reply[end + 2 : end + 2 + int(size)]
        yield key, int(flags), data
        at = end + 2 + int(size) + 2


def shown(reply):
    """A reply as a transcript shows it."""
    word = reply.split(b"\r\n")[0]
    if word in KINDS:
        return KINDS[word]
    if word.startswith(FAILS):
        return {"server_error": word.split(b" ", 1)[1].decode()}
    return {"items": [{"key": latin(key), "flags": flags, "data": latin(data)} for key, flags, data in items_in(reply)]}


def latin(octets):
    return octets.decode("latin-1")


def shown_request(request):
    if isinstance(request, text.Get):
        return {"kind": "get", "keys": [latin(key) for key in request.keys]}
    if isinstance(request, text.Delete):
        return {"kind": "delete", "key": latin(request.key), "noreply": request.noreply}
    names = {"key": latin(request.key), "flags": request.flags, "exptime": request.exptime, "data": latin(request.data)}
    return {"kind": "set", **names, "noreply": request.noreply}


def events_of(words, sent, names):
    """The events of the world that words say, where the visits sent this and the nodes have these names; and of each request that is
    issued the visit, in order."""
    asked = [iter(requests_of(bytes_of_one)) for bytes_of_one in sent]
    events, visits = [], []
    for kind, *numbers in (word.split(":") for word in words):
        numbers = [int(number) for number in numbers]
        if kind == "client":
            proxy, visit = numbers
            visits.append(visit)
            events.append({"do": "client", "proxy": proxy, "request": shown_request(next(asked[visit]))})
        elif kind == "give_up":
            events.append({"do": "give_up", "op": numbers})
        elif kind == "node_restart":
            events.append({"do": kind, "node": names[numbers[0]]})
        else:
            events.append({"do": kind, **dict(zip(KEYS_OF[kind], numbers))})
    return events, visits


KEYS_OF = {"clock": ("proxy", "reading"), "deliver": ("message", "now"), "return": ("reply",), "proxy_restart": ("proxy",)}
