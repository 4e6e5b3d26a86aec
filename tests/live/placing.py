"""Where keys are placed, by the rule of docs/FORMATS.md: the hash of the key, modulo the length of its pool."""
from client import raw


def fnv1a32(key):
    """FNV-1a of 32 bits, as its authors publish it."""
    spot = 2166136261
    for byte in key:
        spot = (spot ^ byte) * 16777619 % 2**32
    return spot


def byte_sum(key):
    """The sum of the bytes, wrapped to 32 bits."""
    return sum(key) % 2**32


HASHES = {"fnv1a32": fnv1a32, "sum": byte_sum}


def place_of(key, length, hash_name="fnv1a32"):
    """The index of a key's node in a pool of this length."""
    return HASHES[hash_name](raw(key)) % length


def key_at(index, length, hash_name="fnv1a32", stem="key"):
    """A key that is placed at this index."""
    return next(key for key in (f"{stem}{n}" for n in range(10000)) if place_of(key, length, hash_name) == index)
