"""When a migration is in which phase, and where its requests go. Written from docs/FORMATS.md, "The timeline".

Up to four migrations may follow one another: hop j goes from pool j to pool j + 1. The hop in force is the last whose start is
reached, and before all starts the first.
"""
from typing import NamedTuple, Tuple

GREATEST = 2**64 - 1
MOST_HOPS = 4
PHASES = ("old-only", "both-read-old", "both-read-new", "new-only")
READ_SIDE = {"old-only": "old", "both-read-old": "old", "both-read-new": "new", "new-only": "new"}
DELETE_SIDES = {"old-only": ("old",), "both-read-old": ("old", "new"), "both-read-new": ("old", "new"), "new-only": ("new",)}


class Hop(NamedTuple):
    """One migration: its first second, and how long each of its two middle phases lasts."""
    start: int
    interval: int

    def bounds(self):
        """The first reading of each phase but the first."""
        return [self.start, self.start + self.interval, self.start + 2 * self.interval]

    def end(self):
        return self.bounds()[-1]

    def is_possible(self):
        return self.interval >= 1 and self.end() <= GREATEST

    def phase(self, reading):
        return PHASES[sum(bound <= reading for bound in self.bounds())]


class Standing(NamedTuple):
    """Where a reading stands: in which hop, counted from 0, and in which phase of it."""
    hop: int
    phase: str


class Schedule(NamedTuple):
    hops: Tuple[Hop, ...]

    def is_possible(self):
        """Whether each hop is, and starts no sooner than the one before has ended."""
        neighbours = zip(self.hops, self.hops[1:])
        return all(hop.is_possible() for hop in self.hops) and all(hop.end() <= then.start for hop, then in neighbours)

    def standing(self, reading):
        hop = max((number for number, it in enumerate(self.hops) if it.start <= reading), default=0)
        return Standing(hop, self.hops[hop].phase(reading))

    def least_interval(self):
        return min(hop.interval for hop in self.hops)


def pool_number(hop, side):
    """The number of the pool that a side of a hop names."""
    return hop if side == "old" else hop + 1


def spread(readings):
    """The greatest difference between two of these; 0 where there is none."""
    return max(readings, default=0) - min(readings, default=0)
