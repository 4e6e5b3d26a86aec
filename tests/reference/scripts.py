"""Scripts: what a fleet is made of and what happens to it. Written from docs/FORMATS.md, "Scripts".

The checks stand in the order of that page. An event that can't be made is BadEvent, whatever is wrong with it.
"""
import functools
from typing import List, NamedTuple, Tuple, Union

from . import fields, formats, refusals, text
from .configs import Config, config_of
from .pools import is_node_name

KEYS = ("events", "format", "setup")
MOST_HELD = 65_536
MOST_PROXIES = 64
MOST_EVENTS = 65_536
PROXIES = range(2**32)


class HeldItem(NamedTuple):
    node: str
    key: bytes
    flags: int
    data: bytes


class ProxySetup(NamedTuple):
    config: Config
    reading: int
    room: int


class Setup(NamedTuple):
    capacity: int
    held: List[HeldItem]
    proxies: List[ProxySetup]


class Clock(NamedTuple):
    proxy: int
    reading: int


class Client(NamedTuple):
    proxy: int
    request: Union[text.Get, text.Set, text.Delete]


class Deliver(NamedTuple):
    message: int
    now: int


class Return(NamedTuple):
    reply: int


class GiveUp(NamedTuple):
    op: Tuple[int, int, int]


class NodeRestart(NamedTuple):
    node: str


class ProxyRestart(NamedTuple):
    proxy: int


class Script(NamedTuple):
    format: formats.Format
    setup: Setup
    events: list
    value: dict  # the three members of the script's own JSON


def script_of(value, further_keys=()):
    """The script that a JSON value is. A transcript has further keys beside it, which aren't looked at here."""
    fields.check_object(value, (*KEYS, *further_keys))
    form = formats.format_of(value["format"])
    setup = setup_of(value["setup"], form)
    events = value["events"]
    has_many_events = type(events) is list and len(events) > MOST_EVENTS
    if len(setup.held) > MOST_HELD or len(setup.proxies) > MOST_PROXIES or has_many_events:
        raise refusals.plan("TooLarge")
    made = [event_of(event, form) for event in fields.array(events)]
    return Script(form, setup, made, {key: value[key] for key in KEYS})


def setup_of(value, form):
    fields.check_object(value, ("capacity", "config", "held", "proxies"))
    capacity = fields.number(value["capacity"])
    config = config_of(value["config"])
    held = [held_item(item, form) for item in fields.array(value["held"])]
    proxies = [proxy_setup(proxy, config) for proxy in fields.array(value["proxies"])]
    nodes = {name for proxy in proxies for name in proxy.config.routing.nodes()}
    if any(item.node not in nodes for item in held) or proxies and capacity == 0:
        raise refusals.plan("BadSetup")
    return Setup(capacity, held, proxies)


def held_item(value, form):
    fields.check_object(value, ("data", "flags", "key", "node"))
    data = form.data(value["data"])
    flags = fields.number(value["flags"], text.FLAGS)
    key = fields.key(value["key"])
    return HeldItem(node_name(value["node"]), key, flags, data)


def proxy_setup(value, common):
    fields.check_object(value, ("reading", "room"), ("config",))
    config = config_of(value["config"]) if "config" in value else common
    return ProxySetup(config, fields.number(value["reading"]), fields.number(value["room"]))


def node_name(value):
    fields.check_kind(type(value) is str and is_node_name(value))
    return value


def event_of(value, form):
    try:
        events = events_of(form)
        fields.check_kind(type(value) is dict and type(value.get("do")) is str and value["do"] in events)
        made, readers = events[value["do"]]
        fields.check_keys(value, ("do", *readers))
        return made(**{key: read(value[key]) for key, read in readers.items()})
    except refusals.Refusal:
        raise refusals.plan("BadEvent") from None


def request_of(value, form):
    fields.check_kind(type(value) is dict and type(value.get("kind")) is str and value["kind"] in REQUESTS)
    return REQUESTS[value["kind"]](value, form)


def get_of(value, _):
    fields.check_object(value, ("kind", "keys"))
    keys = tuple(map(fields.octets, fields.array(value["keys"])))
    fields.check_kind(text.are_keys(keys))
    return text.Get(keys)


def set_of(value, form):
    fields.check_object(value, ("kind", "key", "flags", "exptime", "data"), ("noreply",))
    flags = fields.number(value["flags"], text.FLAGS)
    exptime = fields.number(value["exptime"], text.EXPTIMES)
    return text.Set(fields.key(value["key"]), flags, exptime, form.data(value["data"]), noreply_of(value))


def delete_of(value, _):
    fields.check_object(value, ("kind", "key"), ("noreply",))
    return text.Delete(fields.key(value["key"]), noreply_of(value))


def noreply_of(value):
    noreply = value.get("noreply", False)
    fields.check_kind(type(noreply) is bool)
    return noreply


def op_of(value):
    fields.check_kind(type(value) is list and len(value) == 3)
    return proxy_number(value[0]), fields.number(value[1]), fields.number(value[2])


def proxy_number(value):
    return fields.number(value, PROXIES)


REQUESTS = {"get": get_of, "set": set_of, "delete": delete_of}


@functools.lru_cache(maxsize=None)
def events_of(form):
    """What each kind of event is made as in a format, and what reads its members."""
    return {
        "clock": (Clock, {"proxy": proxy_number, "reading": fields.number}),
        "client": (Client, {"proxy": proxy_number, "request": lambda value: request_of(value, form)}),
        "deliver": (Deliver, {"message": fields.number, "now": fields.number}),
        "return": (Return, {"reply": fields.number}),
        "give_up": (GiveUp, {"op": op_of}),
        "node_restart": (NodeRestart, {"node": node_name}),
        "proxy_restart": (ProxyRestart, {"proxy": proxy_number}),
    }
