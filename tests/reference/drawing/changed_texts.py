"""Transcripts and configurations with one change in one place: of each example, and of drawn ones.

Cases go over the texts in turn, and in each over its places, which stand in an order of their own for each seed, in turn one of each
part of the text. What is changed there goes in turn too, so that after as many rounds as there are changes each of them was made at
each place.
"""
import functools
import itertools
import json
import pathlib
from typing import List, NamedTuple

from . import configs, fleets
from .every_change import Place, changed, changes_at, places
from .sources import SecondSource, Source
from .spelling import compact, spelled

EXAMPLES = pathlib.Path(__file__).resolve().parents[3] / "examples"
DRAWN = 200


class Original(NamedTuple):
    name: str
    value: dict
    places: List[Place]


def altered(source, originals, index):
    """The name of the change that comes at an index, the bytes of the text that it was made in, and the value that this said."""
    turn, of_text = divmod(index, len(originals))
    original = originals[of_text]
    rounds, at = divmod(turn, len(original.places))
    place = original.places[at]
    changes = changes_at(place)
    change = changes[(at + rounds) % len(changes)]
    value = changed(source, original.value, place, change)
    text = spelled(source, value) if source.random() < 0.2 else compact(value).encode()
    return f"{change.__name__} at {place} of {original.name}", text, original.value


@functools.lru_cache(maxsize=None)
def transcripts(seed):
    drawn = [(f"play {place}", drawn_transcript(seed, place)) for place in range(DRAWN)]
    return originals(seed, examples("*.transcript.json") + drawn)


def drawn_transcript(seed, place):
    """A transcript, of which one in four is of format 2."""
    of = SecondSource if place % 4 == 3 else Source
    return fleets.drawn_fleet(of(f"{seed} play {place}")).transcript()


@functools.lru_cache(maxsize=None)
def configurations(seed):
    drawn = [(f"fleet {place}", configs.valid_config(Source(f"{seed} fleet {place}"))) for place in range(DRAWN)]
    return originals(seed, examples("fleet.json") + examples("chain.json") + drawn)


def examples(pattern):
    return [(path.name, json.loads(path.read_bytes())) for path in sorted(EXAMPLES.glob(pattern))]


def originals(seed, named):
    return [Original(name, value, mixed(Source(f"{seed} places {name}"), places(value))) for name, value in named]


def mixed(source, found):
    """These places in a drawn order, in turn one of each part of the whole as long as it has any left."""
    parts = {}
    for place in source.sample(found, len(found)):
        parts.setdefault(place.part(), []).append(place)
    turns = itertools.zip_longest(*source.sample(list(parts.values()), len(parts)))
    return [place for turn in turns for place in turn if place is not None]
