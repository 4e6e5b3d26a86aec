"""Configurations: valid ones, and what is wrong with others."""
import copy
import itertools

from ..configs import POINTER, USUAL_INTERVAL, read_config
from ..phases import GREATEST, MOST_HOPS, Hop
from .alterations import OTHER_KINDS, alter, altered_bytes, pick
from .spelling import Raw, compact, nested, spelled, twice

TOO_LARGE = b" " * (16_777_216 + 1)
# Also shortly before as many seconds as an exptime may count, and before the end of time.
STARTS = (0, 1, 1000, 1000, 2_591_950, 1_700_000_000, GREATEST - 200, GREATEST - 7200)
INTERVALS = (1, 2, 100, 100, 3600)
PAUSES = (0, 0, 0, 1, 2, 100)  # between two hops
USUAL_HOPS = (Hop(1000, 100),)
# As many as the longest chain goes through, in order.
POOL_NAMES = (*[("old", "new", "third", "fourth", "last")] * 2, ("a", "b", "c", "d", "e"), ("", "|", "||", " ", "PoolRoute|"),
              ("\u00e9\u4e2d", "PoolRoute", "\U0001f600", "servers", "from"), ("new", "old", "c", "b", "a"),
              ("Z", "a", "A", "z", "_"))
UNUSED = (*[{"servers": ["9001", "9002"]}] * 6, {"servers": ["7001"]}, {"servers": [str(number) for number in range(1024)]})
NOT_NUMBERS = (None, True, "1000", [1000], {}, -1, Raw("1000.0"), Raw("1e3"), Raw("-0"), Raw("18446744073709551616"), Raw("0.5"))
BAD_NAMES = ("", "a,b", "a b", "\u00e9", "x" * 256, "\n", "\u007f", "7001\u0000", "\U0001f600")

NO_JSON = (
    b"", b" ", b"\0", b"-", b'"', b"{", b"nul", b"{}x", b"[1,]", b'{"a":1,}', b"{'a':1}", b"// {}", b'{"a" 1}', b'{"a":1 "b":2}',
    b"{1:2}", b"\x0c{}", b"{}\xc2\xa0", b"\xef\xbb\xbf{}", b"\xff\xfe{\0}\0", b"[" * 128 + b"]" * 128,
    b'{"a":01}', b'{"a":.5}', b'{"a":1.}', b'{"a":+1}', b'{"a":NaN}', b'{"a":-Infinity}', b'{"a":1e400}', b'{"a":-1e400}',
    b'{"a":' + b"9" * 400 + b"}", b'{"a":tru}', b'{"a":"\n"}', b'{"a":"\\x41"}', b'{"a":"\\u12"}', b'{"a":"\xff"}',
    b'{"a":"\xc0\x80"}', b'{"a":"\xed\xa0\x80"}', b'{"a":"\\ud800"}', b'{"a":"\\udc00"}', b'{"a":"\\ud800\\ud800"}',
    b'{"a":"\\ud83dx\\ude00"}')


def name(source):
    shape = source.randrange(4)
    if shape == 0:
        return "".join(source.choices([chr(it) for it in range(33, 127) if it != ord(",")], k=source.choice((1, 2, 9, 254, 255))))
    return (f"{source.randrange(7000, 7100)}", f"10.0.0.{source.randrange(9)}:11211", f"node{source.randrange(50)}")[shape - 1]


def names(source, count):
    """So many names of nodes, all different."""
    found = {}
    while len(found) < count:
        found[name(source)] = None
    return list(found)


def migration(source, most_nodes=4):
    """A small configuration by one of the usual schedules, of as many hops as the source has it."""
    hops = drawn_hops(source, source.choice(source.hops))
    pools = source.choice(POOL_NAMES)[:len(hops) + 1]
    sizes = [source.randint(1, most_nodes) for _ in pools]
    nodes = iter(names(source, sum(sizes)))
    route = POINTER + pools[0]
    for name, hop in zip(pools[1:], hops):
        route = route_by(hop, route, POINTER + name)
    return {
        "hash": source.choice(("sum", "fnv1a32")),
        "pools": {name: {"servers": list(itertools.islice(nodes, size))} for name, size in zip(pools, sizes)},
        "route": route,
    }


def route_by(hop, old, new):
    return {"type": "MigrateRoute", "from": old, "to": new, "start_time": hop.start, "interval": hop.interval}


def drawn_hops(source, count):
    """So many hops in a row, mostly of one interval, each no sooner than the one before has ended."""
    found = []
    start, usual = source.choice(STARTS), source.choice(INTERVALS)
    for left in range(count, 0, -1):
        interval = usual if source.random() < 0.7 else source.choice(INTERVALS)
        hop = Hop(start, min(interval, (GREATEST - start) // (2 * left)))
        found.append(hop)
        start = hop.end() + min(source.choice(PAUSES), GREATEST - hop.end() - 2 * (left - 1))
    return found


def six_words(source):
    """The words of a migration, but for the second of a request, and its hop. In half of them there are mistakes."""
    old, new = source.choice((1, 2, 3)), source.choice((1, 2, 3, 5))
    nodes = names(source, old + new)
    pools = [nodes[:old], nodes[old:]]
    hop = drawn_hops(source, 1)[0]
    if source.random() < 0.5:
        for mistake in source.sample(MISTAKES_IN_POOLS, source.choice((0, 1, 1, 2))):
            mistake(source, pools)
        hop = source.choice((hop, hop, hop._replace(interval=0), Hop(GREATEST - 1, 1), Hop(source.choice(STARTS), GREATEST)))
    zeros = "0" * source.choice((0, 0, 0, 3))
    return [*map(",".join, pools), zeros + str(hop.start), str(hop.interval), source.choice(("sum", "fnv1a32"))], hop


def has_a_bad_name(source, pools):
    bad = source.choice([name for name in BAD_NAMES if "\0" not in name and "," not in name])
    pool = source.choice(pools)
    pool.insert(source.randrange(len(pool) + 1), bad)


def has_a_repeated_name(source, pools):
    pool = source.choice(pools)
    pool.append(source.choice(pool))


def has_a_shared_name(source, pools):
    old, new = source.sample(pools, 2)
    new.insert(source.randrange(len(new) + 1), source.choice(old))


def has_too_many_names(source, pools):
    source.choice(pools).extend(str(number) for number in range(1024))


MISTAKES_IN_POOLS = (has_a_bad_name, has_a_repeated_name, has_a_shared_name, has_too_many_names)


def reading_about(source, hops):
    """A reading about one of the bounds of some migrations."""
    bound = source.choice(source.choice(hops).bounds())
    return min(max(bound + source.choice((-101, -1, 0, 0, 1, 50)), 0), GREATEST)


def hops_of(config):
    """The hops of a valid configuration."""
    return read_config(compact(config).encode()).schedule.hops


def places_of_routes(config):
    """Where the routes of a configuration stand, that of the first hop first: in which object, and behind which key."""
    places = []
    within, key = config, "route"
    while isinstance(within[key], dict):
        places.insert(0, (within, key))
        within, key = within[key], "from"
    return places


def routes_of(config):
    return [within[key] for within, key in places_of_routes(config)]


def some_route(source, config):
    return source.choice(routes_of(config))


def ends_of(config):
    """Where the pools of a route are named, the first pool first: in which object, and behind which key."""
    routes = routes_of(config)
    return [(routes[0], "from"), *((route, "to") for route in routes)]


def end_of(route):
    """When the hop of a route is over."""
    return route["start_time"] + 2 * route.get("interval", USUAL_INTERVAL)


def valid_config(source):
    """A configuration that is accepted, at some limit of what may stand in it now and then."""
    config = migration(source)
    for change in source.sample(VALID_CHANGES, source.randrange(3)):
        change(source, config)
    return config


def has_no_hash(_, config):
    config.pop("hash", None)


def has_no_interval(_, config):
    """The last hop has no interval, nor has another that is as long as one without."""
    *others, last = routes_of(config)
    latest = GREATEST - 2 * USUAL_INTERVAL
    if not others:
        last["start_time"] = min(last["start_time"], latest)
    if last["start_time"] <= latest:
        for route in (last, *(route for route in others if route.get("interval") == USUAL_INTERVAL)):
            route.pop("interval", None)


def is_over_at_the_end(source, config):
    *others, last = routes_of(config)
    interval = source.choice((1, 100, 3600, 2**62, 2**63 - 1))
    start = GREATEST - 2 * interval - source.choice((0, 0, 1))
    if not others or end_of(others[-1]) <= start:
        last.update(start_time=start, interval=interval)


def has_a_further_pool(source, config):
    config["pools"][source.choice(("unused", "0", "\u00ff"))] = pick(source, UNUSED)


def has_keys_twice(_, config):
    *others, last = routes_of(config)
    config["hash"] = twice("hash", "md5", "sum")
    if not others:
        last["start_time"] = 500
    if last["start_time"] <= GREATEST - 100:
        last["interval"] = twice("interval", None, 50)


VALID_CHANGES = (has_no_hash, has_no_interval, is_over_at_the_end, has_a_further_pool, has_keys_twice)


def refused_config(source):
    """The bytes of a configuration that is refused for a drawn reason, or for the earlier of two."""
    shape = source.randrange(len(FAULTS) + 2)
    if shape == 0:
        return TOO_LARGE if source.random() < 0.02 else source.choice(NO_JSON)
    config = migration(source)
    if shape == 1:
        return faulty_text(source, compact(config).encode())
    for fault in source.sample(FAULTS, source.choice((1, 1, 2))):
        config = broken(source, config, fault)
    return spelled(source, config)


def faulty_text(source, text):
    """A text that is JSON no more, or hardly."""
    cut = source.randrange(len(text))
    return source.choice((
        text[:cut], text + b",", b"\xef\xbb\xbf" + text, text[:cut] + b"\xff" + text[cut:], text.replace(b":", b"="),
        b"[" * 500 + text + b"]" * 500))


def broken(source, config, fault):
    """The configuration with one fault more. Where another has taken away what this one is to change, it stays."""
    try:
        return fault(source, config) or config
    except (AttributeError, IndexError, KeyError, TypeError, ValueError):
        return config


def altered_text(source, config):
    """The bytes of a configuration that is changed in one place, which may leave it as good as before."""
    if source.random() < 0.3:
        return altered_bytes(source, spelled(source, config))
    alter(source, config)
    return spelled(source, config)


def some_pool(source, config):
    return config["pools"][source.choice(list(config["pools"]))]


def is_of_another_kind(source, config):
    """Something that has to be an object, a list, a text or a number is something else."""
    where = source.randrange(5)
    if where == 0:
        return source.choice(([config], "config", 1, True, Raw("null"), Raw("1e3"), nested(1), nested(127), nested(128)))
    if where == 1:
        config["pools"] = source.choice((None, [], "pools", 1))
    elif where == 2:
        config["pools"][source.choice(list(config["pools"]))] = source.choice((None, [], ["7001"], "7001", 1))
    elif where == 3:
        others = None, {}, "7001", 7001, [7001], ["7001", None], [["7001"]], ["7001", True]
        some_pool(source, config)["servers"] = source.choice(others)
    else:
        some_route(source, config)[source.choice(("start_time", "interval"))] = pick(source, NOT_NUMBERS)
    return config


def has_an_unknown_key(source, config):
    within = source.choice((config, some_route(source, config), some_pool(source, config)))
    key = source.choice(("Hash", "weights", "protocol", "", "servers ", "\u00e9", "format"))
    within[key] = pick(source, (*OTHER_KINDS, nested(123), nested(124), nested(125), nested(126), nested(127)))


def lacks_a_key(source, config):
    route = some_route(source, config)
    within, key = source.choice((
        (config, "pools"), (config, "route"), (some_pool(source, config), "servers"), (route, "from"), (route, "to"),
        (route, "start_time")))
    del within[key]


def has_a_bad_pool(source, config):
    pool = some_pool(source, config)
    shape = source.randrange(6)
    if shape == 0:
        pool["servers"].insert(source.randrange(len(pool["servers"]) + 1), source.choice(BAD_NAMES))
    elif shape == 1:
        pool["servers"] = []
    elif shape == 2:
        pool["servers"] += [f"many{number}" for number in range(1025 - source.choice((0, len(pool["servers"]))))]
    elif shape == 3:
        pool["servers"] += pool["servers"][:1]
    else:
        first, second = source.sample(list(config["pools"].values()), 2)
        second["servers"].append(first["servers"][0])


def has_bad_pools(source, config):
    """Each pool is wrong in another way, so that their order shows."""
    for name in config["pools"]:
        change = source.randrange(4)
        if change == 0:
            config["pools"][name] = "7001"
        elif change == 1:
            config["pools"][name]["weights"] = []
        elif change == 2:
            del config["pools"][name]["servers"]
        else:
            config["pools"][name]["servers"] = []


def has_a_bad_route(source, config):
    within, place = source.choice(places_of_routes(config))
    route = within[place]
    shape = source.randrange(5)
    if shape == 0:
        within[place] = source.choice((None, [], "MigrateRoute", 1, [route], {}))
    elif shape == 1:
        route["type"] = source.choice(("PrefixSelectorRoute", "migrateroute", "MigrateRoute ", None, 1, ["MigrateRoute"]))
    elif shape == 2:
        route.pop("type")
    elif shape == 3:
        route["to"] = pick(source, (route, config["route"]["from"], {**route, "from": route["to"]}))
    else:
        key = source.choice(("from", "to"))
        others = "old", "PoolRoute|", "PoolRoute|none", "poolroute|old", "PoolRoute", "", None, 1, {}, dict(route), [route[key]]
        route[key] = source.choice(others)


def has_too_many_routes(source, config):
    """A route from a route, and so on: the fifth may be none."""
    pointers = [within[key] for within, key in ends_of(config)]
    fifth = routes_of(config)[0]
    count = source.choice((MOST_HOPS + 1, MOST_HOPS + 1, MOST_HOPS + 2, 60))
    while len(routes_of(config)) < count:
        config["route"] = route_by(Hop(end_of(config["route"]), 1), config["route"], source.choice(pointers))
    change = source.randrange(4)
    if change == 0:
        fifth["weights"] = []
    elif change == 1:
        del fifth[source.choice(list(fifth))]
    elif change == 2:
        fifth[source.choice(list(fifth))] = None


def points_to_one_pool_twice(source, config):
    (within, key), (other, its_key) = source.sample(ends_of(config), 2)
    within[key] = copy.deepcopy(other[its_key])


def has_a_bad_schedule(source, config):
    *before, route = routes_of(config)[:source.randint(1, len(routes_of(config)))]
    if before and source.random() < 0.6:
        route["start_time"] = max(end_of(before[-1]) - source.choice((1, 1, 2, before[-1]["interval"], 2**64)), 0)
        return
    interval = source.choice((0, 0, 1, 100, 2**63, GREATEST, 2**63 - 1))
    route["interval"] = interval
    if interval in (1, 100, 2**63 - 1):
        route["start_time"] = GREATEST - 2 * interval + source.choice((1, 2))
    elif source.random() < 0.2:
        route.pop("interval")
        route["start_time"] = GREATEST - 7199


def has_a_bad_hash(source, config):
    config["hash"] = source.choice(("md5", "Sum", "", "fnv1a", None, 1, ["sum"], {"hash": "sum"}, "crc32", "fnv1a32 "))


# What no other JSON has; a configuration within a script is mostly broken in one of these ways.
FAULTS_OF_ITS_OWN = (has_a_bad_pool, has_a_bad_route, has_too_many_routes, has_a_bad_schedule, has_a_bad_hash)
FAULTS = (is_of_another_kind, has_an_unknown_key, lacks_a_key, has_bad_pools, points_to_one_pool_twice, *FAULTS_OF_ITS_OWN)
