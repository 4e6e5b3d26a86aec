"""What a fleet's script may end with: an event that is refused, or one of the greatest size."""
from ..phases import GREATEST
from . import data

SMALL_ROOM = 4


def add_refused(source, fleet):
    """Lets a script go on with an event that is refused, and perhaps with others, which aren't played any more."""
    fleet.events.append(source.choice(REFUSED)(source, fleet))
    fleet.events += source.choice(([], fleet.events[:3], [{"do": "node_restart", "node": "none"}]))


def no_such_proxy(source, fleet):
    proxy = source.choice((len(fleet.world.proxies), 2**32 - 1))
    return source.choice((
        {"do": "clock", "proxy": proxy, "reading": 0},
        {"do": "client", "proxy": proxy, "request": fleet.request()},
        {"do": "proxy_restart", "proxy": proxy}))


def no_such_node(source, fleet):
    """The name of no node, but almost that of one."""
    name = source.choice(list(fleet.world.nodes))
    return {"do": "node_restart", "node": source.choice((name[:-1] + "~", name[:254] + "~", "none"))}


def no_such_message(source, fleet):
    return {"do": "deliver", "message": len(fleet.world.messages) + source.choice((0, 0, 1, 2**63)), "now": 0}


def no_such_reply(source, fleet):
    return {"do": "return", "reply": len(fleet.world.deliveries) + source.choice((0, 0, 1, 2**63))}


def no_such_op(source, fleet):
    """The name of a request that was answered, given up or lost, or was never issued."""
    under_way = {op for proxy in fleet.world.proxies for op in proxy.pending}
    proxy, incarnation, number = source.choice(list(fleet.world.requests) or [(0, 0, 0)])
    others = {(proxy, incarnation, number), (proxy, incarnation + 1, number), (proxy, incarnation, number + 1000), (64, 0, 0),
              (2**32 - 1, GREATEST, GREATEST)}
    return {"do": "give_up", "op": list(source.choice(sorted(others - under_way)))}


def no_room(source, fleet):
    """A request to a proxy that has as many under way as it has room for, where one has little enough."""
    proxy = min(fleet.world.proxies, key=lambda it: it.room)
    if proxy.room > SMALL_ROOM:
        return no_such_proxy(source, fleet)
    while not fleet.is_full(proxy.number):
        fleet.ask(proxy.number, fleet.request())
    return {"do": "client", "proxy": proxy.number, "request": fleet.request()}


REFUSED = (no_such_proxy, no_such_node, no_such_message, no_such_reply, no_such_op, no_room, no_room)


def add_greatest(source, fleet):
    """Lets a script go on with a request of the greatest size, and at the greatest moment."""
    proxy = fleet.some_proxy()
    longest = data.longest(source)
    messages = fleet.ask(proxy, source.choice((
        {"kind": "get", "keys": ["k"] * 4094},
        {"kind": "get", "keys": ["x" * 250] * 32 + ["y" * 156]},
        {"kind": "set", "key": "\u00ff" * 250, "flags": 2**32 - 1, "exptime": 2**63 - 1, "data": data.text_of(source, b"\xff" * longest)},
        {"kind": "set", "key": "k", "flags": 0, "exptime": -(2**63), "data": data.text_of(source, b"\0" * longest), "noreply": True})))
    for message in messages[:1]:
        fleet.happen(do="deliver", message=message, now=GREATEST)
    fleet.happen(do="clock", proxy=proxy, reading=GREATEST)
