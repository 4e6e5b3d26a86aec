"""What happened in a fleet, as one list of entries, and its judge. Written from what docs/definitions prints of mr_history.

A history is safe where each hit is fresh: its item was stored before the answer and after the issue of each delete of its key
that was acknowledged before the get was issued.
"""
from typing import NamedTuple, Optional

from . import text

BEGINNING = "beginning"
ACKNOWLEDGES = ("deleted", "not_found")


class Issued(NamedTuple):
    op: tuple
    request: object


class Stored(NamedTuple):
    by: object  # an op, or BEGINNING
    key: bytes
    flags: int
    data: bytes


class Removed(NamedTuple):
    op: tuple
    side: str
    key: bytes


class Answered(NamedTuple):
    op: tuple
    answer: object


class Verdict(NamedTuple):
    """`safe`; or the get and the key of the first hit that isn't fresh: `invented` by nobody's set, or `stale` by a delete."""
    kind: str
    get: Optional[tuple] = None
    key: Optional[bytes] = None
    delete: Optional[tuple] = None


class Acknowledged(NamedTuple):
    op: tuple
    key: bytes
    issued: int
    answered: int


def judge(history):
    issued = {entry.op: (place, entry.request) for place, entry in enumerate(history) if isinstance(entry, Issued)}
    answers = [(place, *entry) for place, entry in enumerate(history) if isinstance(entry, Answered)]
    deletes = [Acknowledged(op, issued[op][1].key, issued[op][0], place) for place, op, answer in answers
               if isinstance(issued[op][1], text.Delete) and answer.kind in ACKNOWLEDGES]
    for place, op, answer in answers:
        asked, request = issued[op]
        if isinstance(request, text.Get):
            before = [delete for delete in deletes if delete.answered < asked]
            for item in answer.items:
                verdict = verdict_of_hit(op, item, history[:place], before)
                if verdict.kind != "safe":
                    return verdict
    return Verdict("safe")


def verdict_of_hit(get, item, before_answer, acknowledged):
    """Whether an item that a get hit is fresh, by the entries before the answer and the deletes acknowledged before the get."""
    stored = [place for place, entry in enumerate(before_answer) if isinstance(entry, Stored) and entry[1:] == item]
    if not stored:
        return Verdict("invented", get, item.key)
    deletes = [delete for delete in acknowledged if delete.key == item.key]
    if any(all(delete.issued < place for delete in deletes) for place in stored):
        return Verdict("safe")
    convicting = [delete for delete in deletes if delete.issued > stored[-1]]
    return Verdict("stale", get, item.key, min(convicting, key=lambda delete: delete.issued).op)
