"""Scripts of small fleets: requests, loss, repeats, reordering, restarts, and clocks that keep the premises or don't.

A script is drawn event by event beside a fleet that plays it, so that what an event names is there when it comes.
"""
from ..history import judge
from ..nodes import moment_of
from ..phases import GREATEST
from ..scripts import event_of, setup_of
from ..transcripts import Play
from ..worlds import World
from . import data
from .configs import migration, reading_about
from .setups import FLAGS, KEYS, Odds, drawn_setup

EXPTIMES = (0, 1, 2, 100, 2592000, 2592001, -1, 2**63 - 1, -(2**63))
MOMENTS = (0, 1, 2592000, 2592001, GREATEST - 1, GREATEST)


class Fleet:
    """A fleet with the script of what has happened to it so far. None of its events is refused."""

    def __init__(self, source, setup):
        self.source = source
        self.setup = setup
        self.world = World(setup_of(setup, source.form))
        self.events = []
        self.notes = []
        self.keys = source.sample(KEYS, source.choice((1, 1, 2, setup["capacity"] + 1)))
        self.data = [data.drawn(source) for _ in range(source.randrange(1, 4))]
        self.undelivered = []  # messages that have reached no node
        self.unreturned = []  # replies that haven't come back

    def script(self):
        return {"format": self.source.form.number, "setup": self.setup, "events": self.events}

    def transcript(self):
        played = Play(self.notes, self.world.history, self.world.premises(), judge(self.world.history), None)
        return {**self.script(), **played.found(self.source.form)}

    def happen(self, **event):
        self.events.append(event)
        self.notes.append(self.world.step(event_of(event, self.source.form)))
        return self.notes[-1]

    # What clients ask for.

    def some_proxy(self):
        return self.source.randrange(len(self.world.proxies))

    def is_full(self, proxy):
        return len(self.world.proxies[proxy].pending) >= self.world.proxies[proxy].room

    def request(self):
        kind = self.source.choice(("get", "get", "get", "set", "set", "delete"))
        if kind == "get":
            return self.get(*self.source.choices(self.keys, k=self.source.choice((1, 1, 1, 2, 3))))
        key = self.source.choice(self.keys)
        request = self.delete(key) if kind == "delete" else self.set(key)
        if self.source.random() < 0.2:
            request["noreply"] = self.source.random() < 0.5
        return request

    def get(self, *keys):
        return {"kind": "get", "keys": list(keys)}

    def set(self, key):
        flags = self.source.choice(FLAGS)
        exptime = 0 if self.source.random() < 0.6 else self.source.choice(EXPTIMES)
        text = data.text_of(self.source, self.source.choice(self.data))
        return {"kind": "set", "key": key, "flags": flags, "exptime": exptime, "data": text}

    def delete(self, key):
        return {"kind": "delete", "key": key}

    # What happens to one request, message or reply.

    def ask(self, proxy, request):
        """A client asks a proxy, where it has room; answers the numbers of the request's messages."""
        if self.is_full(proxy):
            return []
        first, count = self.happen(do="client", proxy=proxy, request=request)["messages"]
        messages = list(range(first, first + count))
        self.undelivered += messages
        return messages

    def deliver(self, message, now=None):
        """A message reaches its node, mostly about the reading of its proxy; answers the number of the reply."""
        if now is None:
            now = self.world.readings[self.world.messages[message].op[0]] + self.source.choice((0, 0, 0, 0, 1, 99, 100))
        reply = self.happen(do="deliver", message=message, now=min(max(now, 0), GREATEST))["performed"]
        if message in self.undelivered:
            self.undelivered.remove(message)
        self.unreturned.append(reply)
        return reply

    def give_back(self, reply):
        self.happen(do="return", reply=reply)
        if reply in self.unreturned:
            self.unreturned.remove(reply)

    def complete(self, proxy, request, now=None):
        """A request is asked, performed and answered; a reply may come twice."""
        for message in self.ask(proxy, request):
            reply = self.deliver(message, now)
            for _ in range(self.source.choice((1, 1, 1, 1, 1, 2))):
                self.give_back(reply)

    # What may come next, one of these at a time.

    def do_wholly(self):
        self.complete(self.some_proxy(), self.request())

    def do_part(self):
        self.ask(self.some_proxy(), self.request())

    def look_again(self):
        """A key is set, and asked for through some proxy."""
        key = self.source.choice(self.keys)
        self.complete(self.some_proxy(), self.set(key))
        self.complete(self.some_proxy(), self.get(key))

    def bring_back(self):
        """A key is set, deleted through other proxies, and asked for. The premises are there so that the get doesn't hit."""
        first = self.some_proxy()
        key = self.source.choice(self.keys)
        self.complete(first, {**self.set(key), "exptime": 0})
        for _ in range(self.source.choice((1, 1, 2))):
            other = (first + self.source.choice((1, 1, 2))) % len(self.world.proxies)
            self.complete(other, self.delete(key))
        self.complete(first, self.get(key))

    def set_meanwhile(self):
        """A key is set while a delete of it is under way, and asked for once that was answered."""
        key = self.source.choice(self.keys)
        replies = [self.deliver(message) for message in self.ask(self.some_proxy(), self.delete(key))]
        proxy = self.some_proxy()
        self.complete(proxy, {**self.set(key), "exptime": 0})
        for reply in replies:
            self.give_back(reply)
        self.complete(proxy, self.get(key))

    def let_expire(self):
        """A key is set for some time, and asked for or deleted about the moment at which that is over."""
        key = self.source.choice(self.keys)
        proxy = self.some_proxy()
        exptime = self.source.choice(EXPTIMES)
        now = self.source.choice((self.world.readings[proxy], *MOMENTS))
        self.complete(proxy, {**self.set(key), "exptime": exptime}, now)
        over = moment_of(exptime, now) or 0
        for request in self.source.sample((self.get(key), self.get(key), self.delete(key)), 2):
            self.complete(proxy, request, over + self.source.choice((-1, 0, 1)))

    def fill_up(self):
        """A node is given one key more than it has room for, and before that something else happens to one of the others."""
        proxy = self.some_proxy()
        *keys, last = self.source.sample(KEYS, self.setup["capacity"] + 1)
        for key in keys:
            self.complete(proxy, {**self.set(key), "exptime": 0})
        key = self.source.choice(keys)
        self.complete(proxy, self.source.choice((self.get(key), self.get(key), self.set(key), self.delete(key))))
        self.complete(proxy, {**self.set(last), "exptime": 0})
        self.complete(proxy, self.get(*keys, last))

    def lose_one(self):
        """A request is given up whose last message gets no reply."""
        messages = self.ask(self.some_proxy(), self.source.choice((self.request(), self.delete(self.source.choice(self.keys)))))
        for message in messages[:-1]:
            self.give_back(self.deliver(message))
        for message in messages[:1]:
            self.happen(do="give_up", op=list(self.world.messages[message].op))

    def deliver_some(self):
        """A message reaches its node that hasn't yet, or now and then any again."""
        if self.undelivered and self.source.random() < 0.8:
            self.deliver(self.source.choice(self.undelivered))
        elif self.world.messages:
            self.deliver(self.source.randrange(len(self.world.messages)))

    def return_some(self):
        """A reply comes back that hasn't yet, or now and then any again."""
        if self.unreturned and self.source.random() < 0.8:
            self.give_back(self.source.choice(self.unreturned))
        elif self.world.deliveries:
            self.give_back(self.source.randrange(len(self.world.deliveries)))

    def give_up_some(self):
        ops = [op for proxy in self.world.proxies for op in proxy.pending]
        if ops:
            self.happen(do="give_up", op=list(self.source.choice(ops)))

    def restart_node(self):
        self.happen(do="node_restart", node=self.source.choice(list(self.world.nodes)))

    def restart_proxy(self):
        self.happen(do="proxy_restart", proxy=self.some_proxy())

    def move_clocks(self):
        """Time goes on by the same amount everywhere."""
        on = self.source.choice((0, 1, 50, 100))
        for proxy, reading in enumerate(self.world.readings):
            self.happen(do="clock", proxy=proxy, reading=min(reading + on, GREATEST))

    def set_clock(self):
        """A clock shows any reading about the bounds of its schedule, forth or back."""
        proxy = self.some_proxy()
        self.happen(do="clock", proxy=proxy, reading=reading_about(self.source, self.hops(proxy)))

    def go_on(self, bounds=1):
        """Time goes on everywhere to about the next bound of a schedule, or over so many."""
        readings = self.world.readings
        hops = self.hops(self.some_proxy())
        ahead = [bound for hop in hops for bound in hop.bounds() if bound > max(readings)]
        for bound in ahead[bounds - 1:bounds] or ahead[-1:]:
            self.bring_to(min(bound + self.source.choice((-1, 0, 0, 1, 50)), GREATEST))

    def bring_to(self, aim):
        """Each clock is brought to a reading, in turn the one that is furthest from it, so that no two are further apart than a least
        interval if they weren't before. Where that would take many steps, only the first of them are made."""
        readings = self.world.readings
        least = min(hop.interval for hop in self.hops(0))
        for _ in range(6 * len(readings)):
            is_late = min(readings) < aim
            proxy = readings.index(min(readings) if is_late else max(readings))
            if readings[proxy] == aim:
                return
            others = readings[:proxy] + readings[proxy + 1:] or [aim]
            reading = min(aim, min(others) + least) if is_late else max(aim, max(others) - least)
            self.happen(do="clock", proxy=proxy, reading=reading)

    def outlive(self):
        """A key that some node may hold is deleted, and asked for when time has gone on."""
        key = self.source.choice([item["key"] for item in self.setup["held"]] or self.keys)
        self.complete(self.some_proxy(), self.delete(key))
        self.go_on(self.source.choice((1, 2, 3)))
        self.complete(self.some_proxy(), self.get(key))

    def go_back(self):
        """A key is set, deleted when time has gone on, and asked for through a restarted proxy when all clocks were set back."""
        key = self.source.choice(self.keys)
        proxy = self.some_proxy()
        reading = self.world.readings[proxy]
        self.complete(proxy, {**self.set(key), "exptime": 0})
        self.go_on(self.source.choice((2, 3)))
        self.complete(self.some_proxy(), self.delete(key))
        self.bring_to(reading)
        self.happen(do="proxy_restart", proxy=proxy)
        self.complete(proxy, self.get(key))

    def hops(self, proxy):
        return self.world.setup.proxies[proxy].config.schedule.hops


# How often each of these comes, by how a fleet fares.
STEADY = {Fleet.do_wholly: 5, Fleet.look_again: 2, Fleet.bring_back: 1, Fleet.let_expire: 1, Fleet.move_clocks: 1,
          Fleet.go_on: 1}
LOSSY = {Fleet.do_wholly: 3, Fleet.look_again: 2, Fleet.do_part: 3, Fleet.deliver_some: 4, Fleet.return_some: 4,
         Fleet.lose_one: 1, Fleet.set_meanwhile: 1, Fleet.give_up_some: 1, Fleet.restart_node: 1, Fleet.restart_proxy: 1,
         Fleet.move_clocks: 1, Fleet.go_on: 1}
WILD = {**LOSSY, Fleet.bring_back: 6, Fleet.set_meanwhile: 2, Fleet.set_clock: 3}
TELLING = {Fleet.bring_back: 3, Fleet.set_meanwhile: 2, Fleet.do_wholly: 1, Fleet.set_clock: 1, Fleet.go_on: 1}
CROSSING = {Fleet.go_on: 2, Fleet.outlive: 2, Fleet.go_back: 1, Fleet.bring_back: 2, Fleet.do_wholly: 1}
CROWDED = {Fleet.fill_up: 1, Fleet.do_wholly: 1, Fleet.let_expire: 1}
USUAL = Odds()
FAR = Odds(near=0.2)
ODD = Odds(own=0.4, any_pool=0.6)
FARES = (*[(STEADY, USUAL)] * 2, *[(LOSSY, USUAL)] * 2, *[(WILD, FAR)] * 2, *[(TELLING, FAR)] * 3, *[(CROSSING, ODD)] * 2,
         (CROWDED, USUAL))


def drawn_fleet(source):
    """A fleet to which 5 to 60 events or a few more have happened."""
    fare, odds = source.choice(FARES)
    fleet = Fleet(source, drawn_setup(source, odds, fare is CROWDED))
    count = source.choice((5, 15, 30, 45, 60))
    actions, weights = list(fare), list(fare.values())
    while len(fleet.events) < count:
        source.choices(actions, weights)[0](fleet)
    return fleet


def empty_fleet(source):
    """A fleet of nobody, to which nothing happens; its nodes, which aren't there, have no room for an item."""
    return Fleet(source, {"capacity": 0, "config": migration(source), "held": [], "proxies": []})
