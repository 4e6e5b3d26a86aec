"""One memory cache: its items in order of use, and what each command does. Written from docs/FORMATS.md, "What a play does"."""
from typing import NamedTuple, Optional

from . import text
from .phases import GREATEST

MOST_RELATIVE = 2_592_000


class Reply(NamedTuple):
    """What one leg came to: hit, miss, stored, deleted, not_found or lost. A hit has flags and data."""
    kind: str
    flags: int = 0
    data: bytes = b""


class Look(NamedTuple):
    """The command that looks for one key; the others of a node are a set's and a delete's own requests."""
    key: bytes


class CachedItem(NamedTuple):
    key: bytes
    flags: int
    data: bytes
    moment: Optional[int]  # at which it is over, if ever

    def is_over(self, now):
        return self.moment is not None and self.moment <= now


def moment_of(exptime, now):
    """When an item is over that is set at `now`. A negative exptime is over at once."""
    if exptime == 0:
        return None
    if exptime < 0:
        return 0
    return min(now + exptime, GREATEST) if exptime <= MOST_RELATIVE else exptime


class Node:
    def __init__(self, capacity):
        self.capacity = capacity
        self.items = []  # the one used last in front

    def restart(self):
        self.items = []

    def perform(self, command, now):
        if isinstance(command, Look):
            return self.get(command.key, now)
        if isinstance(command, text.Set):
            return self.set(command, now)
        return self.delete(command.key, now)

    def take_out(self, key):
        """The item of a key, which the node has no longer; None where it had none."""
        for place, item in enumerate(self.items):
            if item.key == key:
                return self.items.pop(place)
        return None

    def get(self, key, now):
        item = self.take_out(key)
        if item is None or item.is_over(now):
            return Reply("miss")
        self.items.insert(0, item)
        return Reply("hit", item.flags, item.data)

    def set(self, command, now):
        item = CachedItem(command.key, command.flags, command.data, moment_of(command.exptime, now))
        self.take_out(item.key)
        if not item.is_over(now):
            del self.items[self.capacity - 1:]
            self.items.insert(0, item)
        return Reply("stored")

    def delete(self, key, now):
        item = self.take_out(key)
        return Reply("not_found" if item is None or item.is_over(now) else "deleted")
