"""Configurations: which pools migrations join, when, and by which hash. Written from docs/FORMATS.md, "Configurations".

The checks stand in the order of that page.
"""
from typing import List, NamedTuple

from . import fields, json_text, refusals
from .phases import MOST_HOPS, Hop, Schedule
from .pools import HASHES, MOST_NODES, Routing, are_pool, is_node_name

POINTER = "PoolRoute|"
USUAL_INTERVAL = 3600
USUAL_HASH = "fnv1a32"


class Config(NamedTuple):
    routing: Routing
    schedule: Schedule


class Chain(NamedTuple):
    """What a route says: the pools in order, and the hops from each to the next."""
    pools: List[tuple]
    hops: List[Hop]


def read_config(data):
    fields.check_size(data)
    return config_of(json_text.read(data))


def read_words(old, new, start, interval, name):
    """The configuration of one migration that words say: the names of two pools with commas between them, a start, an interval and the
    name of a hash. Written from docs/FORMATS.md, "A migration in six words"."""
    routing = Routing((said_pool(old), said_pool(new)), name)
    if not routing.is_apart():
        raise refusals.pools("SharedName")
    hop = Hop(start, interval)
    if hop.interval == 0:
        raise refusals.phases("ZeroInterval")
    if not hop.is_possible():
        raise refusals.phases("TooLate")
    return Config(routing, Schedule((hop,)))


def said_pool(word):
    names = tuple(word.split(","))
    if not all(map(is_node_name, names)):
        raise refusals.pools("BadName")
    if len(names) > MOST_NODES:
        raise refusals.pools("TooManyNodes")
    if not are_pool(names):
        raise refusals.pools("RepeatedName")
    return names


def config_of(value):
    fields.check_object(value, ("pools", "route"), ("hash",))
    pools = pools_of(value["pools"])
    chain = route_of(value["route"], pools, MOST_HOPS)
    schedule = Schedule(tuple(chain.hops))
    if not schedule.is_possible():
        raise refusals.plan("BadSchedule")
    name = value.get("hash", USUAL_HASH)
    if type(name) is not str or name not in HASHES:
        raise refusals.plan("BadHash")
    routing = Routing(tuple(chain.pools), name)
    if not routing.is_apart():
        raise refusals.plan("BadPool")
    return Config(routing, schedule)


def pools_of(value):
    fields.check_kind(type(value) is dict)
    return {name: pool_of(value[name]) for name in sorted(value)}


def pool_of(value):
    fields.check_object(value, ("servers",))
    names = fields.array(value["servers"])
    fields.check_kind(all(type(name) is str for name in names))
    if not are_pool(names):
        raise refusals.plan("BadPool")
    return tuple(names)


def route_of(value, pools, most):
    """The chain of a route that may hold as many objects as `most` says, itself the first of them."""
    if most == 0 or type(value) is not dict or value.get("type") != "MigrateRoute":
        raise refusals.plan("BadRoute")
    fields.check_keys(value, ("type", "from", "to", "start_time"), ("interval",))
    before = chain_before(value["from"], pools, most - 1)
    new = pool_behind(value["to"], pools)
    start = fields.number(value["start_time"])
    hop = Hop(start, fields.number(value.get("interval", USUAL_INTERVAL)))
    return Chain([*before.pools, new], [*before.hops, hop])


def chain_before(value, pools, most):
    """What a route goes on from: a pool, or where another route has come to."""
    if type(value) is dict:
        return route_of(value, pools, most)
    return Chain([pool_behind(value, pools)], [])


def pool_behind(value, pools):
    """The pool that a text such as `PoolRoute|old` points to."""
    if type(value) is not str or not value.startswith(POINTER) or value[len(POINTER):] not in pools:
        raise refusals.plan("BadRoute")
    return pools[value[len(POINTER):]]
