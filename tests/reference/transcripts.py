"""Plays of scripts, their transcripts, and the check of one. Written from docs/FORMATS.md, "Transcripts"."""
from typing import NamedTuple, Optional

from . import fields, json_text, refusals, scripts, text
from .formats import characters
from .history import BEGINNING, Answered, Issued, Stored, Verdict, judge
from .proxies import Refused
from .worlds import World

FOUND_KEYS = ("notes", "history", "premises", "verdict")  # in the order in which they are compared
DIFFERENCES = ("notes differ", "history differs", "premises differ", "verdict differs")


class Play(NamedTuple):
    """What came of a script's events, up to the first that is refused, if any is."""
    notes: list
    history: list
    premises: dict
    verdict: Verdict
    refused: Optional[int]

    def found(self, form):
        """The members that a transcript of a format has beside those of its script."""
        return {
            "notes": self.notes,
            "history": [entry_json(entry, form) for entry in self.history],
            "premises": self.premises,
            "verdict": verdict_json(self.verdict),
        }


class Checked(NamedTuple):
    premises: dict
    verdict: Verdict
    outcome: str


def play(script):
    world = World(script.setup)
    notes = []
    refused = None
    for index, event in enumerate(script.events):
        try:
            notes.append(world.step(event))
        except Refused:
            refused = index
            break
    return Play(notes, world.history, world.premises(), judge(world.history), refused)


def transcript(data):
    """The transcript of the script that these bytes are, as bytes."""
    fields.check_size(data)
    script = scripts.script_of(json_text.read(data))
    played = play(script)
    if played.refused is not None:
        raise refusals.plan("EventRefused")
    made = json_text.write({**script.value, **played.found(script.format)})
    fields.check_size(made + b"\n")
    return made


def check(data):
    """What a check of the transcript that these bytes are comes to."""
    fields.check_size(data)
    value = json_text.read(data)
    script = scripts.script_of(value, FOUND_KEYS)
    played = play(script)
    return Checked(played.premises, played.verdict, outcome(played, script.format, value))


def outcome(played, form, value):
    if played.refused is not None:
        return f"event {played.refused} refused"
    found = played.found(form)
    for key, difference in zip(FOUND_KEYS, DIFFERENCES):
        if not json_text.is_same(found[key], value[key]):
            return difference
    if not all(played.premises.values()):
        return "premise false"
    return "accepted" if played.verdict.kind == "safe" else "not safe"


def entry_json(entry, form):
    if isinstance(entry, Issued):
        return {"entry": "issued", "op": list(entry.op), "proxy": entry.op[0], "request": request_json(entry.request, form)}
    if isinstance(entry, Stored):
        by = entry.by if entry.by == BEGINNING else list(entry.by)
        return {"entry": "stored", "by": by, **item_json(entry, form)}
    if isinstance(entry, Answered):
        return {"entry": "answered", "op": list(entry.op), "reply": answer_json(entry.answer, form)}
    return {"entry": "removed", "op": list(entry.op), "side": entry.side, "key": characters(entry.key)}


def request_json(request, form):
    if isinstance(request, text.Get):
        return {"kind": "get", "keys": [characters(key) for key in request.keys]}
    if isinstance(request, text.Set):
        return {"kind": "set", "exptime": request.exptime, "noreply": request.noreply, **item_json(request, form)}
    return {"kind": "delete", "key": characters(request.key), "noreply": request.noreply}


def answer_json(answer, form):
    if answer.kind == "items":
        return {"items": [item_json(item, form) for item in answer.items]}
    return {"server_error": "leg lost"} if answer.kind == "lost" else answer.kind


def item_json(item, form):
    return {"key": characters(item.key), "flags": item.flags, "data": form.shown(item.data)}


def verdict_json(verdict):
    if verdict.kind == "safe":
        return "safe"
    told = {"get": list(verdict.get), "key": characters(verdict.key)}
    return {verdict.kind: {**told, "delete": list(verdict.delete)} if verdict.kind == "stale" else told}
