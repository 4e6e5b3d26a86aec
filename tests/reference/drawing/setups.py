"""What small fleets are made of: proxies and their clocks, nodes, and what these hold at the beginning."""
import copy
from typing import NamedTuple

from ..configs import config_of
from ..phases import GREATEST
from . import data
from .configs import end_of, ends_of, hops_of, migration, reading_about, routes_of

KEYS = ("k", "a", "b", "user:1", "\u00ff\u0080", "x" * 250)
FLAGS = (0, 0, 0, 1, 2**32 - 1)
ROOMS = (1, 2, 4, 100, GREATEST)


class Odds(NamedTuple):
    """How likely it is that the clocks of a fleet are near enough to one another at first, that a proxy has a configuration of its
    own, and that any pool may hold items, and not the first alone."""
    near: float = 0.8
    own: float = 0.2
    any_pool: float = 0.25


def drawn_setup(source, odds, is_crowded):
    """What a fleet is made of; a crowded one has one small node a pool."""
    config = migration(source, 1 if is_crowded else 4)
    hops = hops_of(config)
    count = source.choice((1, 2, 2, 3, 4))
    if source.random() < odds.near:
        first = reading_about(source, hops)
        last = min(first + min(hop.interval for hop in hops), GREATEST)
        readings = [source.randint(first, last) for _ in range(count)]
    else:
        hop = source.choice(hops)
        ends = max(hop.start - 1, 0), hop.end()
        readings = [source.choice((*ends, reading_about(source, [hop]), reading_about(source, hops))) for _ in range(count)]
    proxies = [{"reading": reading, "room": source.choice(ROOMS)} for reading in readings]
    if source.random() < odds.own:
        source.choice(proxies)["config"] = config_of_its_own(source, config)
    homes = [proxy.get("config", config) for proxy in proxies]
    is_any = source.random() < odds.any_pool
    count = source.choice((1, 3) if is_any else (0, 0, 1, 3))
    held = [held_item(source, source.choice(homes), is_any) for _ in range(count)]
    return {"capacity": source.randint(1, 3 if is_crowded else 5), "config": config, "held": held, "proxies": proxies}


def config_of_its_own(source, config):
    """What a proxy has in place of the common configuration: the same again, one that differs in one place, or quite another."""
    own = copy.deepcopy(config)
    routes = routes_of(own)
    place = source.randrange(len(routes))
    route = routes[place]
    change = source.randrange(8)
    if change == 0:
        route["interval"] = max(route["interval"] - 1, 1)
    elif change == 1:
        earlier = route["start_time"] - source.choice((1, route["interval"]))
        route["start_time"] = max(earlier, end_of(routes[place - 1]) if place else 0)
    elif change == 2:
        own["hash"] = "fnv1a32" if own["hash"] == "sum" else "sum"
    elif change == 3:
        (within, key), (other, its_key) = source.sample(ends_of(own), 2)
        within[key], other[its_key] = other[its_key], within[key]
    elif change == 4:
        own = migration(source)
    elif change == 5:
        last = routes[-1]
        later = last["start_time"] + source.choice((1, last["interval"]))
        last["start_time"] = min(later, GREATEST - 2 * last["interval"])
    elif len(routes) > 1:  # without the last hop, or the same again
        own["route"] = source.choice((own["route"]["from"], own["route"]))
    return own


def held_item(source, config, is_any):
    """An item that a node of the first pool, or of any, holds at the beginning, mostly the node of its key."""
    routing = config_of(config).routing
    number = source.randrange(len(routing.pools)) if is_any else 0
    key = source.choice(KEYS)
    node = routing.node(number, key.encode("latin-1"))
    if source.random() < 0.3:
        node = source.choice(routing.pools[number])
    return {"node": node, "key": key, "flags": source.choice(FLAGS), "data": data.text_of(source, data.drawn(source))}
