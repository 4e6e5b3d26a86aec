"""Runs of fleets as streams of bytes: few keys, few clients, one or two migrations, clocks within the interval and beyond it, bytes in
any pieces, connections that break with bytes on their way, restarts; most of them near the moment at which a phase begins."""
from typing import NamedTuple

START = 1000
ALL = 1_000_000  # more bytes than ever stand anywhere
KEYS = (b"k", b"a", b"kk")
ODD_LINES = (b"version\r\n", b"gets k\r\n", b"\r\n", b"get\r\n", b"set k 0 0 x\r\n", b"delete\r\n", b"quit\r\n")


class Drawn(NamedTuple):
    script: dict  # of the fleet, without events
    bounds: tuple
    events: list  # words each
    sent: list  # the bytes that the client of each visit sent
    names: list  # of the nodes, by number
    values: dict  # all data that was ever set, by key
    premises: str  # those that hold, as digits: same, new_empty, forward, near


def drawn_run(source):
    return Run(source).drawn()


class Run:
    def __init__(self, source):
        self.source = source
        self.intervals = [source.choice((2, 10, 100)) for _ in range(source.choice((1, 1, 2)))]
        self.pools = [[f"{'abc'[pool]}{node}" for node in range(source.choice((1, 1, 2)))] for pool in range(len(self.intervals) + 1)]
        self.names = [name for pool in self.pools for name in pool]
        self.draw_clocks()
        self.is_near = source.random() < 0.65
        self.count = source.choice((1, 2, 2, 3) if self.is_near else (2, 2, 3))  # proxies
        self.draw_readings()
        self.keys = KEYS[: source.choice((1, 2, 2, 3))]
        self.places = source.choice((1, 1, 2))
        self.events, self.sent, self.values = [], [], {key: set() for key in self.keys}
        self.visits = [self.new_visits() for _ in range(self.count)]
        self.current = {}  # connections by proxy and link
        self.connections = 0
        self.unheld = set()  # visits of clients that may be sent more

    def draw_clocks(self):
        """The starts of the migrations, and the moments at which phases begin."""
        self.starts, at = [], START
        for interval in self.intervals:
            self.starts.append(at)
            at += 2 * interval + self.source.choice((0, 0, interval))
        self.borders = [start + times * interval for start, interval in zip(self.starts, self.intervals) for times in range(3)]
        self.least = min(self.intervals)

    def draw_readings(self):
        """The first readings, around the last second before a border and the first that is too far ahead of it."""
        source, least = self.source, self.least
        hop = source.randrange(len(self.starts))
        before = self.starts[hop] + source.choice((0, self.intervals[hop])) - 1
        far = before + 1 + self.intervals[hop]
        among = (before, before, before + 1, before + least) if self.is_near else (before, before, before - 1, far, far, far + 1)
        self.first = [source.choice(among) for _ in range(self.count)]
        self.readings = list(self.first)
        self.spread = max(self.readings) - min(self.readings)
        self.forward = True

    def new_visits(self):
        return [self.new_visit() for _ in range(self.places)]

    def new_visit(self):
        self.sent.append(b"")
        return len(self.sent) - 1

    def happens(self, *words):
        self.events.append(":".join(map(str, words)))

    def drawn(self):
        source = self.source
        self.held = self.drawn_held()
        for proxy in range(self.count):
            for link in range(len(self.names)):
                if source.random() < 0.97:
                    self.connect(proxy, link)
        if source.random() < 0.3:
            self.dance()
            self.march()
            self.march()
        for _ in range(source.choice((3, 6, 8, 12))):
            source.choices(tuple(WEIGHTS), tuple(WEIGHTS.values()))[0](self)
        for proxy in range(self.count):
            self.pump(proxy)
        return Drawn(self.script(), self.bounds(), self.events, self.sent, self.names, self.values, self.premises())

    def script(self):
        source = self.source
        pools = {"abc"[number]: {"servers": names} for number, names in enumerate(self.pools)}
        route = "PoolRoute|a"
        for number, (start, interval) in enumerate(zip(self.starts, self.intervals)):
            to = f"PoolRoute|{'abc'[number + 1]}"
            route = {"type": "MigrateRoute", "from": route, "to": to, "start_time": start, "interval": interval}
        config = {"hash": source.choice(("sum", "fnv1a32")), "pools": pools, "route": route}
        room = source.choice((2, 4, 100, 100))
        proxies = [{"reading": reading, "room": room} for reading in self.first]
        setup = {"capacity": source.choice((2, 100, 100)), "config": config, "held": self.held, "proxies": proxies}
        return {"format": 1, "setup": setup, "events": []}

    def bounds(self):
        """Places, the most legs, requests begun and bytes unread of a proxy, the bound of time of a leg, and a node's bytes unread."""
        source = self.source
        return (self.places, source.choice((2, 100, 100)), source.choice((2, 64, 64)), source.choice((0, 40, 10_000, 10_000)), 1000,
                source.choice((0, 20, 10_000, 10_000)))

    def drawn_held(self):
        source = self.source
        if source.random() < 0.8:
            return []
        pool = self.pools[0] if source.random() < 0.7 else source.choice(self.pools)
        key = source.choice(self.keys)
        self.values[key].add((7, b"held"))
        return [{"node": source.choice(pool), "key": key.decode(), "flags": 7, "data": "held"}]

    def premises(self):
        new_nodes = [name for pool in self.pools[1:] for name in pool]
        held = (True, not any(item["node"] in new_nodes for item in self.held), self.forward, self.spread <= self.least)
        return "".join(str(int(it)) for it in held)

    # what happens

    def request(self):
        source = self.source
        proxy, place = source.randrange(self.count), source.randrange(self.places)
        text = b"".join(self.text() for _ in range(source.choice((1, 1, 1, 2, 4))))
        self.send(proxy, place, text)
        if source.random() < 0.75:
            self.pump(proxy)

    def dance(self):
        self.dance_over(self.source.randrange(self.count), self.source.randrange(self.count))

    def dance_over(self, asked, other):
        """A key is set, deleted and asked for, one after the other; what one proxy set the other deletes, most often."""
        source, key = self.source, self.source.choice(self.keys)
        for kind in source.choice(("sdg", "sdg", "sg", "sgdg", "dsg", "sdsg")):
            text = {"s": self.set_text(key, b""), "d": b"delete %s\r\n" % key, "g": b"get %s\r\n" % key}[kind]
            proxy = (other if kind == "d" else asked) if source.random() < 0.8 else source.randrange(self.count)
            self.send(proxy, source.randrange(self.places), text)
            if source.random() < 0.95:
                self.pump(proxy)

    def text(self):
        source, key = self.source, self.source.choice(self.keys)
        noreply = b" noreply" if source.random() < 0.04 else b""
        kind = source.random()
        if kind < 0.33:
            return self.set_text(key, noreply)
        if kind < 0.58:
            return b"delete %s%s\r\n" % (key, noreply)
        if kind < 0.985:
            return b"get %s\r\n" % b" ".join(source.choice(self.keys) for _ in range(source.choice((1, 1, 1, 2, 3))))
        return source.choice(ODD_LINES)

    def set_text(self, key, noreply):
        source = self.source
        flags = len(self.values[key]) if source.random() < 0.9 else source.choice((0, 2**32 - 1))
        data = b"%d.%d" % (len(self.events), source.randrange(100))
        if source.random() < 0.1:
            data = source.choice((b"", b"END\r\n", b"\r\n" * 9))
        exptime = source.choice((0, 0, 0, 0, 0, 1, -1, START + 1))
        self.values[key].add((flags, data))
        return b"set %s %d %d %d%s\r\n%s\r\n" % (key, flags, exptime, len(data), noreply, data)

    def send(self, proxy, place, text):
        """A client sends a text in pieces, of which the last may come later."""
        source = self.source
        pieces = source.choice((1, 1, 2, 3, len(text)))
        cuts = sorted(source.randrange(len(text) + 1) for _ in range(pieces - 1))
        for start, end in zip([0, *cuts], [*cuts, len(text)]):
            self.hear(proxy, place, text[start:end])

    def hear(self, proxy, place, piece):
        self.sent[self.visits[proxy][place]] += piece
        self.happens("hears", proxy, place, "-" + piece.hex())

    def connect(self, proxy, link):
        self.happens("connects", proxy, link)
        self.current[proxy, link] = self.connections
        self.connections += 1

    def pump(self, proxy):
        """All bytes go on their way, for and back, and each client is told what there is for it."""
        for link in range(len(self.names)):
            number = self.current.get((proxy, link))
            if number is not None:
                self.happens("asks", number, ALL)
                self.cross(number)
        self.happens("looks", proxy)
        for place in range(self.places):
            self.happens("answers", proxy, place)
            self.happens("tells", proxy, place, ALL if self.source.random() < 0.9 else self.source.randrange(1, 12))
            if self.source.random() < 0.3:
                self.hear(proxy, place, b"")

    def cross(self, number):
        """What is on its way over a connection goes on, at times in small pieces at first."""
        counts = [ALL] if self.source.random() < 0.9 else [*(self.source.randrange(1, 12) for _ in range(5)), ALL]
        for count in counts:
            self.happens("serves", number, self.node_reading(), count)
            self.happens("replies", number, count)
            self.happens("takes", number, count)

    def node_reading(self):
        return self.source.choice(self.readings)

    def crumbs(self):
        """Some bytes go on a little, over any connections, among them those that are left."""
        source = self.source
        for _ in range(source.choice((1, 4, 12))):
            if self.connections == 0:
                return
            number = source.randrange(self.connections)
            count = source.choice((1, 2, 5, 17, 40, ALL))
            kind = source.choice(("asks", "serves", "replies", "takes"))
            self.happens(kind, number, *([self.node_reading()] if kind == "serves" else []), count)

    def tell(self):
        source = self.source
        proxy, place = source.randrange(self.count), source.randrange(self.places)
        if source.random() < 0.7:
            self.happens("answers", proxy, place)
        self.happens("tells", proxy, place, source.choice((1, 3, 8, ALL)))

    def tick(self):
        """A clock shows a later reading, most often one near a border; at times an earlier one."""
        source, proxy = self.source, self.source.randrange(self.count)
        others = [reading for number, reading in enumerate(self.readings) if number != proxy]
        now = self.readings[proxy]
        most = min(others, default=now) + self.least if self.is_near else now + 3 * self.least
        wanted = [border - less for border in self.borders for less in (0, 1) if now < border - less <= most]
        later = source.choice(wanted) if wanted and source.random() < 0.8 else source.randint(now, max(now, most))
        reading = later if source.random() < 0.98 else now - source.choice((1, self.least))
        self.show(proxy, reading)

    def show(self, proxy, reading):
        self.forward &= reading >= self.readings[proxy]
        self.readings[proxy] = reading
        self.spread = max(self.spread, max(self.readings) - min(self.readings))
        self.happens("shows", proxy, reading)

    def march(self):
        """The clocks go on, in the end as far apart as they may be: the first of them has come to the next border."""
        border = min((border for border in self.borders if border > max(self.readings)), default=0)
        behind = border - self.least
        if self.count == 1 or behind > min(self.readings) + self.least:
            return self.tick()
        for proxy, reading in enumerate(self.readings):
            if reading < behind:
                self.show(proxy, behind)
        pair = self.source.sample(range(self.count), 2)
        if border:
            self.show(pair[0], border)
        return self.dance_over(*self.source.sample(pair, 2))

    def late(self):
        """What a client asks leaves its proxy, whose links break; what is on its way is performed later, if at all."""
        source = self.source
        proxy, place, key = source.randrange(self.count), source.randrange(self.places), source.choice(self.keys)
        self.send(proxy, place, self.set_text(key, b"") if source.random() < 0.7 else b"delete %s\r\n" % key)
        left = [(link, number) for (owner, link), number in self.current.items() if owner == proxy]
        for _, number in left:
            self.happens("asks", number, ALL if source.random() < 0.8 else source.randrange(1, 30))
        for link, _ in left:
            if source.random() < 0.7:
                self.break_link(proxy, link)
        for link, _ in left:
            if source.random() < 0.9:
                self.connect(proxy, link)
        for _ in range(source.choice((0, 1, 1, 2))):
            self.request()
        for _, number in left:
            if source.random() < 0.8:
                self.cross(number)
                self.happens("ends", number, self.node_reading())

    def break_link(self, proxy, link):
        self.happens("breaks", proxy, link)
        self.current.pop((proxy, link), None)

    def lose(self):
        """A link breaks, or a connection is lost at its node's end; most often there is a new one at once."""
        source = self.source
        proxy, link = source.randrange(self.count), source.randrange(len(self.names))
        if source.random() < 0.5:
            self.break_link(proxy, link)
        elif (proxy, link) in self.current:
            self.happens("drops", self.current[proxy, link])
        if source.random() < 0.9:
            self.connect(proxy, link)

    def wait(self):
        """Time passes, at times more than a leg may take: its link breaks then."""
        self.happens("waits", self.source.choice((10, 400, 1500)))

    def leave(self):
        source = self.source
        proxy, place = source.randrange(self.count), source.randrange(self.places)
        if source.random() < 0.3:
            self.happens("hears_end", proxy, place)
            self.pump(proxy)
        self.happens(source.choice(("comes", "goes")), proxy, place)
        self.visits[proxy][place] = self.new_visit()

    def restart_node(self):
        node = self.source.randrange(len(self.names))
        self.happens("restarts_node", node)
        for (proxy, link), _ in sorted(self.current.items()):
            if link == node and self.source.random() < 0.9:
                self.connect(proxy, link)

    def restart_proxy(self):
        proxy = self.source.randrange(self.count)
        self.happens("restarts_proxy", proxy)
        self.visits[proxy] = self.new_visits()
        for link in range(len(self.names)):
            self.current.pop((proxy, link), None)
            self.connect(proxy, link)


WEIGHTS = {
    Run.dance: 26,
    Run.request: 30,
    Run.crumbs: 7,
    Run.tell: 3,
    Run.tick: 6,
    Run.march: 8,
    Run.late: 6,
    Run.lose: 4,
    Run.wait: 2,
    Run.leave: 2,
    Run.restart_node: 1.5,
    Run.restart_proxy: 1.5,
}
