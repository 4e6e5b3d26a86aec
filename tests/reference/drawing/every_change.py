"""Every change that can be made in one place of a JSON value: each value changed, dropped, doubled and moved, each key renamed, each
entry swapped with another, and of a transcript each request renumbered wherever it is named.
"""
import copy
from typing import NamedTuple

from . import alterations

OPS = "ops"  # leads to the names of a transcript's requests, as a key would
OP_KEYS = ("op", "by", "issued", "answered", "get", "delete")


class Place(NamedTuple):
    """A key or a place of an object or a list within a value, or of a transcript the name of a request."""
    path: tuple  # of keys and places, from the whole to that object or list
    within: object
    key: object

    def part(self):
        """In which part of the whole it stands: in or within which member, or among its members."""
        return self.path[:1], len(self.path) == 1

    def __str__(self):
        return ".".join(map(str, (*self.path, self.key)))


def places(value):
    """All places of a value at which something can be changed, in order, and behind them the names of requests."""
    found = [Place(path, within, key) for path, within in containers(value) for key in keys_of(within)]
    return found + [Place((OPS,), value, op) for op in ops_of(value)]


def changes_at(place):
    """What can be changed at a place."""
    if place.path == (OPS,):
        return [renumber]
    changes = OF_A_MEMBER if isinstance(place.within, dict) else OF_AN_ENTRY
    return changes + [alterations.odd_number] if type(place.within[place.key]) is int else changes


def changed(source, value, place, change):
    """A value with one change made in it. What the change leaves open is drawn."""
    whole = within = copy.copy(value)
    for key in () if place.path == (OPS,) else place.path:
        within[key] = copy.copy(within[key])
        within = within[key]
    change(source, within, place.key)
    return whole


def containers(value, path=()):
    """Each object and list of a value, with the keys and places that lead to it."""
    if isinstance(value, (dict, list)):
        yield path, value
        for key in keys_of(value):
            yield from containers(value[key], (*path, key))


def keys_of(within):
    return list(within) if isinstance(within, dict) else range(len(within))


def move_member(source, within, key):
    """A member moves into an object beside it, or else to the end, which is no change."""
    value = within.pop(key)
    others = [other for other in within if isinstance(within[other], dict)]
    if others:
        other = source.choice(others)
        within[other] = {**within[other], key: value}
    else:
        within[key] = value


def ops_of(value):
    """The names of the requests that a value names, each once, in order of their numbers."""
    named = {tuple(within[key]) for _, within in containers(value) if isinstance(within, dict)
             for key in OP_KEYS if is_op(within.get(key))}
    return sorted(named)


def is_op(value):
    return isinstance(value, list) and len(value) == 3 and all(type(number) is int for number in value)


def renumber(source, within, op):
    """A request gets another name wherever it is named: that of another one, or one of which a number differs."""
    new = source.choice([*map(list, ops_of(within)), *neighbours(op)])
    for key in within:
        within[key] = renumbered(within[key], list(op), new)


def renumbered(value, old, new):
    if isinstance(value, list):
        return [renumbered(entry, old, new) for entry in value]
    if isinstance(value, dict):
        return {key: new if key in OP_KEYS and value[key] == old else renumbered(value[key], old, new) for key in value}
    return value


def neighbours(op):
    """The names of which one number is the next one."""
    return [[number + (place == at) for place, number in enumerate(op)] for at in range(3)]


OF_BOTH = [alterations.other_value, alterations.other_kind, alterations.drop]
OF_A_MEMBER = [*OF_BOTH, alterations.rename, alterations.double_key, alterations.add_key, move_member]
OF_AN_ENTRY = [*OF_BOTH, alterations.double_entry, alterations.move_entry, alterations.swap_entries]
