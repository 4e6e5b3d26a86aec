"""What comes of asking for metrics and for statistics, and the digest of a configuration. Written from docs/METRICS.md."""
import hashlib
import re

from . import json_text, refusals
from .metrics import END, FIELD, MOST_FIELDS, VALUE

MOST_RESPONSE = 4_194_304
MOST_STATS = 65_536
PIECE = 4096
STATUS = re.compile(rb"(?:\r?\n)*HTTP/1\.[01] ([0-9]{3})(?: " + VALUE + rb")?\r?\n")
TOO_LARGE, NO_RESPONSE = 3, 4


def of_fetch(host, response):
    """0 or the number of the fault in a line, what is written, and what is given."""
    asked = b"GET /metrics HTTP/1.1\r\nHost: " + host.encode() + b"\r\nConnection: close\r\n\r\n"
    if len(response) > MOST_RESPONSE:
        return outcome(TOO_LARGE, asked)
    body = body_of(response)
    return outcome(NO_RESPONSE, asked) if body is None else outcome(0, asked, body)


def body_of(response):
    """What follows the head of a response, where that is of status 200 and agrees with it; else None."""
    start = STATUS.match(response)
    if not start or start[1] != b"200":
        return None
    place, fields = start.end(), []
    while not END.match(response, place):
        field = FIELD.match(response, place)
        if not field:
            return None
        name, _, value = field[0].rstrip(b"\r\n").partition(b":")
        fields.append((name.lower(), value.strip(b" \t")))
        place = field.end()
    body = response[END.match(response, place).end() :]
    return body if len(fields) <= MOST_FIELDS and agree(fields, len(body)) else None


def agree(fields, length):
    values = [value for name, value in fields if name == b"content-length"]
    return all(value == str(length).encode() for value in values) and not any(name == b"transfer-encoding" for name, _ in fields)


def of_asking(*parts):
    """The same for statistics. Each part of the answer is read by itself."""
    asked, answer = b"stats\r\n", b""
    for piece in (part[place : place + PIECE] for part in parts for place in range(0, len(part), PIECE)):
        answer += piece
        if len(answer) > MOST_STATS:
            return outcome(TOO_LARGE, asked)
        if answer.endswith((b"END\r\n", b"ERROR\r\n")):
            break
    return outcome(0, asked, answer)


def outcome(number, asked, given=b""):
    return b"%d\n" % number + asked + given


def of_digest(config):
    try:
        return hashlib.sha256(json_text.write(json_text.read(config))).hexdigest().encode()
    except refusals.Refusal:
        return b"not JSON\n"
