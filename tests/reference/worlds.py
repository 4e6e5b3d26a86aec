"""A fleet, event by event: clocks, messages, replies, restarts, and the history of what happened.

Written from docs/FORMATS.md, "What a play does", and what docs/definitions prints of mr_world.
"""
from typing import NamedTuple

from . import scripts, text
from .history import BEGINNING, Answered, Issued, Removed, Stored
from .nodes import Node, Reply
from .phases import spread
from .proxies import Leg, Proxy, Refused


class Message(NamedTuple):
    op: tuple
    place: int
    leg: Leg


class Delivery(NamedTuple):
    message: Message
    reply: Reply


class World:
    def __init__(self, setup):
        self.setup = setup
        self.readings = [proxy.reading for proxy in setup.proxies]
        self.proxies = [Proxy(number, it.config, it.room) for number, it in enumerate(setup.proxies)]
        self.nodes = {name: Node(setup.capacity) for it in setup.proxies for name in it.config.routing.nodes()}
        self.messages = []
        self.deliveries = []
        self.history = []
        self.requests = {}  # each that was issued, by op
        self.went_back = False
        self.greatest_spread = spread(self.readings)
        for item in setup.held:
            self.nodes[item.node].perform(text.Set(item.key, item.flags, 0, item.data, False), 0)
            self.history.append(Stored(BEGINNING, item.key, item.flags, item.data))

    def step(self, event):
        """Does what an event says, or raises Refused; answers the event's note."""
        return STEPS[type(event)](self, *event)

    def clock(self, proxy, reading):
        self.went_back |= reading < entry(self.readings, proxy)
        self.readings[proxy] = reading
        self.greatest_spread = max(self.greatest_spread, spread(self.readings))
        return "nothing"

    def client(self, proxy, request):
        op, legs = entry(self.proxies, proxy).issue(self.readings[proxy], request)
        first = len(self.messages)
        self.messages += [Message(op, place, leg) for place, leg in enumerate(legs)]
        self.requests[op] = request
        self.history.append(Issued(op, request))
        return {"issued": list(op), "messages": [first, len(legs)]}

    def deliver(self, message, now):
        sent = entry(self.messages, message)
        op, command = sent.op, sent.leg.command
        reply = self.nodes[sent.leg.node].perform(command, now)
        if isinstance(command, text.Set):
            self.history.append(Stored(op, command.key, command.flags, command.data))
        elif isinstance(command, text.Delete):
            self.history.append(Removed(op, sent.leg.side, command.key))
        self.deliveries.append(Delivery(sent, reply))
        return {"performed": len(self.deliveries) - 1}

    def return_(self, reply):
        message, answer = entry(self.deliveries, reply)
        op = message.op
        taken = self.proxies[op[0]].take(op, message.place, answer)
        return taken if isinstance(taken, str) else self.answered(op, taken)

    def give_up(self, op):
        if op[0] >= len(self.proxies):
            raise Refused
        return self.answered(op, self.proxies[op[0]].give_up(op))

    def answered(self, op, answer):
        request = self.requests[op]
        if isinstance(request, text.Get) or not request.noreply:
            self.history.append(Answered(op, answer))
        return {"answered": list(op)}

    def node_restart(self, node):
        if node not in self.nodes:
            raise Refused
        self.nodes[node].restart()
        return "nothing"

    def proxy_restart(self, proxy):
        entry(self.proxies, proxy).restart()
        return "nothing"

    def premises(self):
        """The four premises of the headline, of the setup and of the events so far."""
        configs = [proxy.config for proxy in self.setup.proxies]
        new_nodes = {name for config in configs for pool in config.routing.pools[1:] for name in pool}
        least = min((config.schedule.least_interval() for config in configs), default=0)
        return {
            "same": all(config == configs[0] for config in configs),
            "new_empty": not any(item.node in new_nodes for item in self.setup.held),
            "forward": not self.went_back,
            "near": self.greatest_spread <= least,
        }


def entry(entries, place):
    if place >= len(entries):
        raise Refused
    return entries[place]


STEPS = {
    scripts.Clock: World.clock,
    scripts.Client: World.client,
    scripts.Deliver: World.deliver,
    scripts.Return: World.return_,
    scripts.GiveUp: World.give_up,
    scripts.NodeRestart: World.node_restart,
    scripts.ProxyRestart: World.proxy_restart,
}
