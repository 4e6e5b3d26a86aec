"""Nodes' names, pools, and the node of a key.

Written from docs/FORMATS.md, "Configurations", and what docs/definitions prints of mr_pools.
"""
import re
from typing import NamedTuple, Tuple

NODE_NAME = re.compile(r"[!-+\--~]{1,255}")  # visible ASCII without a comma
MOST_NODES = 1024


def is_node_name(text):
    return NODE_NAME.fullmatch(text) is not None


def are_pool(names):
    """Whether these names make a pool. What is wrong with a list that makes none isn't printed, so it isn't told."""
    return 1 <= len(names) <= MOST_NODES and all(map(is_node_name, names)) and len(set(names)) == len(names)


def sum_hash(key):
    return sum(key) % 2**32


def fnv1a32(key):
    spot = 2166136261
    for byte in key:
        spot = (spot ^ byte) * 16777619 % 2**32
    return spot


HASHES = {"sum": sum_hash, "fnv1a32": fnv1a32}


class Routing(NamedTuple):
    """The nodes of each pool by name, in order, and the name of the hash."""
    pools: Tuple[Tuple[str, ...], ...]
    hash: str

    def nodes(self):
        """The nodes of all pools, the first pool's first."""
        return [name for pool in self.pools for name in pool]

    def is_apart(self):
        """Whether no node stands in two pools."""
        return len(set(self.nodes())) == len(self.nodes())

    def node(self, number, key):
        """The node of a key in the pool of a number."""
        pool = self.pools[number]
        return pool[HASHES[self.hash](key) % len(pool)]
