"""Fleets in which one premise alone is false, because of one hop, and in which a key that was deleted is got again."""
import copy

from ..configs import POINTER, config_of
from ..phases import GREATEST
from . import data
from .configs import ends_of, hops_of, migration, routes_of
from .fleets import Fleet
from .setups import KEYS


def drawn_breach(source):
    """A fleet of one or two proxies. There is a second before the first hop, so that a reading can stand there."""
    config = migration(source)
    while hops_of(config)[0].start == 0:
        config = migration(source)
    last = len(hops_of(config)) - 1
    return source.choice(BREACHES)(source, config, source.choice((source.randint(0, last), last)))


def fleet_of(source, config, readings, **other):
    proxies = [{"reading": reading, "room": 4} for reading in readings]
    return Fleet(source, {"capacity": 4, "config": config, "held": [], "proxies": proxies, **other})


def set_delete_get(fleet, deleter, key):
    """A key is set and asked for through a proxy, and in between deleted through another."""
    fleet.complete(1 - deleter, {**fleet.set(key), "exptime": 0})
    fleet.complete(deleter, fleet.delete(key))
    fleet.complete(1 - deleter, fleet.get(key))
    return fleet


def far_apart(source, config, number):
    """One proxy deletes before the hop while the other already reads its new pool; or behind it while the other still reads the old."""
    start, middle, end = hops_of(config)[number].bounds()
    readings = source.choice(((start - 1, middle), (end, middle - 1)))
    return set_delete_get(fleet_of(source, config, readings), 0, source.choice(KEYS))


def not_the_same(source, config, number):
    """What deletes knows another new pool, or a later start."""
    middle = hops_of(config)[number].bounds()[1]
    own = copy.deepcopy(config)
    if source.random() < 0.5 or not start_later(own, number):
        rename_nodes(own, number + 1)
    proxies = [{"reading": middle, "room": 4, "config": own}, {"reading": middle, "room": 4}]
    return set_delete_get(fleet_of(source, config, (), proxies=proxies), 0, source.choice(KEYS))


def start_later(config, number):
    """Lets a hop and those behind it start behind its middle, where there is time for that; answers whether there is."""
    hops = hops_of(config)
    later = hops[number].interval + 1
    if hops[-1].end() + later > GREATEST:
        return False
    for route in routes_of(config)[number:]:
        route["start_time"] += later
    return True


def rename_nodes(config, number):
    """Gives the pool of a number other nodes."""
    within, key = ends_of(config)[number]
    pool = config["pools"][within[key].removeprefix(POINTER)]
    pool["servers"] = [f"another{place}" for place in range(len(pool["servers"]))]


def not_empty(source, config, number):
    """The new pool holds an item of which nobody knows when the key is deleted before the hop."""
    start, middle, _ = hops_of(config)[number].bounds()
    key = source.choice(KEYS)
    node = config_of(config).routing.node(number + 1, key.encode("latin-1"))
    item = {"node": node, "key": key, "flags": 0, "data": data.text_of(source, b"v")}
    fleet = fleet_of(source, config, (start - 1,), held=[item])
    fleet.complete(0, fleet.delete(key))
    fleet.happen(do="clock", proxy=0, reading=middle)
    fleet.complete(0, fleet.get(key))
    return fleet


def back(source, config, number):
    """A clock that has shown the end of the hop shows a reading before its middle again."""
    _, middle, end = hops_of(config)[number].bounds()
    fleet = fleet_of(source, config, (middle - 1,))
    key = source.choice(KEYS)
    fleet.complete(0, {**fleet.set(key), "exptime": 0})
    fleet.happen(do="clock", proxy=0, reading=end)
    fleet.complete(0, fleet.delete(key))
    fleet.happen(do="clock", proxy=0, reading=middle - 1)
    fleet.happen(do="proxy_restart", proxy=0)
    fleet.complete(0, fleet.get(key))
    return fleet


BREACHES = (far_apart, not_the_same, not_empty, back)
