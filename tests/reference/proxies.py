"""One proxy: its requests become legs, and what comes back one answer.

Written from what docs/definitions prints of mr_proxy and mr_join and docs/FORMATS.md, "What a play does".
"""
from typing import NamedTuple

from . import text
from .nodes import Look, Reply
from .phases import DELETE_SIDES, READ_SIDE, pool_number

LOST = Reply("lost")
BADNESS = {"hit": 0, "miss": 0, "stored": 0, "deleted": 0, "not_found": 1, "lost": 2}


class Refused(Exception):
    """An event that can't happen; nothing has changed."""


class Leg(NamedTuple):
    side: str
    node: str
    command: object  # a Look, a set or a delete


class Item(NamedTuple):
    key: bytes
    flags: int
    data: bytes


class Answer(NamedTuple):
    """The answer to a request: of the kind `items` where a get found out, else of the kind of its worst leg."""
    kind: str
    items: tuple = ()


class Pending:
    """A request under way: its legs in order, and the reply of each that has one."""

    def __init__(self, request, legs):
        self.request = request
        self.legs = legs
        self.replies = [None] * len(legs)


def answer_to(request, replies):
    """The join of what the legs of a request came to, in order of place: of a get the items found, else the worst."""
    worst = max(replies, key=lambda reply: BADNESS[reply.kind])  # the first of the greatest
    if isinstance(request, text.Get) and worst.kind != "lost":
        found = zip(request.keys, replies)
        return Answer("items", tuple(Item(key, it.flags, it.data) for key, it in found if it.kind == "hit"))
    return Answer(worst.kind)


class Proxy:
    def __init__(self, number, config, room):
        self.number = number
        self.config = config
        self.room = room
        self.incarnation = 0
        self.next_number = 0
        self.last_reading = 0
        self.pending = {}  # by op

    def issue(self, reading, request):
        """The op of a request that is now under way, and its legs. A proxy doesn't go by an earlier reading than its last one."""
        if len(self.pending) >= self.room:
            raise Refused
        self.last_reading = max(reading, self.last_reading)
        op = self.number, self.incarnation, self.next_number
        self.next_number += 1
        legs = self.legs_of(request, self.config.schedule.standing(self.last_reading))
        self.pending[op] = Pending(request, legs)
        return op, legs

    def legs_of(self, request, standing):
        hop, phase = standing
        if isinstance(request, text.Delete):
            return [self.leg(hop, side, request) for side in DELETE_SIDES[phase]]
        commands = map(Look, request.keys) if isinstance(request, text.Get) else [request]
        return [self.leg(hop, READ_SIDE[phase], command) for command in commands]

    def leg(self, hop, side, command):
        return Leg(side, self.config.routing.node(pool_number(hop, side), command.key), command)

    def take(self, op, place, reply):
        """What comes of a reply: `stranger` where no open leg awaits it, `waiting` for others, or the answer to the request."""
        pending = self.pending.get(op)
        if pending is None or pending.replies[place] is not None:
            return "stranger"
        pending.replies[place] = reply
        return "waiting" if None in pending.replies else self.close(op)

    def give_up(self, op):
        if op not in self.pending:
            raise Refused
        return self.close(op)

    def close(self, op):
        """The answer to a request, which is no longer under way. A leg without a reply counts as lost."""
        pending = self.pending.pop(op)
        return answer_to(pending.request, [reply or LOST for reply in pending.replies])

    def restart(self):
        self.pending = {}
        self.incarnation += 1
        self.next_number = 0
        self.last_reading = 0
