"""Changes in one place: of bytes, and of JSON values."""
import copy

from .spelling import Raw, twice

ODD_NUMBERS = ("{}.0", "{}e0", "{}E+0", "0{}", "+{}", "{}.", "-{}", "{}{}", "-0", "-1", "0.5", "0e999", "1e-400", "1e400", "1e308",
               "18446744073709551615", "18446744073709551616", "NaN", "Infinity", "1_0", "0x1")
OTHER_KINDS = (None, True, False, 0, 1, "", "old", [], {}, [0], {"op": 1}, Raw("1.0"), Raw("-0"), Raw("1e3"))
OTHER_KEYS = ("", "key", "keys", "op", "do", "kind", "Key", "type", "noreply", "config", "hash", "format", "weights", "\u00e9")


def pick(source, values):
    """One of these values, as a copy of its own: what is drawn may be changed further."""
    return copy.deepcopy(source.choice(values))


def altered_bytes(source, data):
    """Bytes with one of them, or one piece, changed, dropped, doubled or put in; or cut short."""
    place = source.randrange(len(data) + 1)
    behind = min(len(data), place + source.choice((1, 1, 1, 2, 5)))
    piece = data[place:behind]
    change = source.randrange(5)
    if change == 0:
        return data[:place]
    if change == 1:
        return data[:place] + data[behind:]
    if change == 2:
        return data[:behind] + piece + data[behind:]
    other = bytes([source.choice(b" \r\n\t\0\x7f\xff0123456789-+abkgetsdl\"{}[]:,\\")])
    return data[:place] + other + data[behind if change == 3 else place:]


def alter(source, value):
    """Changes an object or a list in one place, which may lie deep within it."""
    alter_at(source, *place_in(source, value))


def alter_at(source, container, key):
    """Changes an object or a list at one of its keys or places."""
    changes = [other_value, other_value, other_kind, drop]
    if isinstance(container, dict):
        changes += [rename, double_key, add_key]
    else:
        changes += [double_entry, move_entry, swap_entries]
    if type(container[key]) is int:
        changes += [odd_number]
    source.choice(changes)(source, container, key)


def place_in(source, container):
    """An object or a list within this one, and one of its keys or places. An empty one can't be asked for a place within it."""
    while True:
        key = source.choice(list(container)) if isinstance(container, dict) else source.randrange(len(container))
        within = container[key]
        if not isinstance(within, (dict, list)) or not within or source.random() < 0.2:
            return container, key
        container = within


def other_value(source, container, key):
    """Another value of the same kind."""
    value = container[key]
    if isinstance(value, bool):
        container[key] = not value
    elif isinstance(value, int):
        container[key] = source.choice((value + 1, max(value - 1, 0), 0, 1, 2**32 - 1, 2**32, 2**64 - 1))
    elif isinstance(value, str) and source.random() < 0.2 and value.swapcase() != value:
        container[key] = value.swapcase()
    elif isinstance(value, str):
        place = source.randrange(len(value) + 1)
        container[key] = value[:place] + source.choice("ks0 ,|\n\u007f\u00ff\u0100") + value[place + source.randrange(2):]
    elif isinstance(value, list):
        container[key] = source.choice((value[1:], value + value[:1], value[::-1], [0, 0, 0]))
    elif isinstance(value, dict):
        container[key] = {}
    else:
        container[key] = "other"


def other_kind(source, container, key):
    container[key] = pick(source, OTHER_KINDS)


def odd_number(source, container, key):
    container[key] = Raw(source.choice(ODD_NUMBERS).format(container[key], 0))


def drop(_, container, key):
    del container[key]


def rename(source, container, key):
    value = container.pop(key)
    container[source.choice((*OTHER_KEYS, key + " ", key[1:], key.upper()))] = value


def double_key(source, container, key):
    pair = [container[key], pick(source, OTHER_KINDS)]
    source.shuffle(pair)
    container[key] = twice(key, *pair)


def add_key(source, container, _):
    container[source.choice(OTHER_KEYS)] = pick(source, OTHER_KINDS)


def double_entry(_, container, key):
    container.insert(key, container[key])


def move_entry(source, container, key):
    container.insert(source.randrange(len(container)), container.pop(key))


def swap_entries(source, container, key):
    other = source.randrange(len(container))
    container[key], container[other] = container[other], container[key]
