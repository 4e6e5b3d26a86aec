"""Migrations: where requests go by the phase that a proxy's clock names."""
import random
import threading
import time

from client import DELETED, LOST, MISS, NOT_FOUND, PATIENCE, STORED, delete_of, get_of, hits, set_of
from fleet import Fleet
from moments import moment
from placing import key_at, place_of
from running import case
from wanted import Wrong, check

HOUR = 3600


class Pools:
    """Two nodes of an old pool and three of a new one, which are looked at directly."""

    def __init__(self, fleet):
        self.old = fleet.nodes(2)
        self.new = fleet.nodes(3)
        self.own = [it.client() for it in (*self.old, *self.new)]

    def config(self, fleet, start, interval=None):
        """A migration from the old pool to the new one."""
        return fleet.config(self.old, self.new, start=start, interval=interval, hash_name="sum")

    def key(self, old, new, stem):
        """A key that is placed at these indices of the pools."""
        keys = (key_at(old, 2, "sum", f"{stem}{n}-") for n in range(100))
        return next(key for key in keys if place_of(key, 3, "sum") == new)

    def held(self, key):
        """What each node holds under a key, the old pool's first; nothing where it holds no such item."""
        return [it.value_of(key) for it in self.own]

    def lies(self, key, old=(), new=()):
        """The key lies at these nodes and nowhere else: each an index and a value."""
        wanted = [dict(old).get(n) for n in range(2)] + [dict(new).get(n) for n in range(3)]
        check(f"where {key} lies, old pool and new pool", wanted, self.held(key))

    def put(self, key, old, new, value):
        """Stores a value at one node of each pool, past all proxies."""
        self.own[old].ask(set_of(key, value), STORED)
        self.own[2 + new].ask(set_of(key, value), STORED)


def look_at_phase(pools, client, reads_new, deletes, stem):
    """Looks where a client's get, set and delete go, by what becomes of items at the nodes."""
    key = pools.key(1, 2, stem)
    pools.put(key, 1, 2, "old")
    pools.own[4].ask(set_of(key, "new"), STORED)
    client.ask(get_of(key), hits((key, "new" if reads_new else "old")))
    client.ask(set_of(key, "set"), STORED)
    pools.lies(key, old=[(1, "old" if reads_new else "set")], new=[(2, "set" if reads_new else "new")])
    client.ask(delete_of(key), DELETED)
    pools.lies(
        key,
        old=[] if "old" in deletes else [(1, "old" if reads_new else "set")],
        new=[] if "new" in deletes else [(2, "set" if reads_new else "new")],
    )
    # Without an answer it goes the same way, and a request behind it too.
    pools.put(key, 1, 2, "v")
    client.ask(delete_of(key, noreply=True) + set_of(key, "w") + get_of(key), STORED + hits((key, "w")))
    left_old = None if "old" in deletes else "v"
    left_new = None if "new" in deletes else "v"
    pools.lies(
        key,
        old=[(1, left_old if reads_new else "w")],
        new=[(2, "w" if reads_new else left_new)],
    )


PHASES = (
    ("old-only", False, ("old",)),
    ("both-read-old", False, ("old", "new")),
    ("both-read-new", True, ("old", "new")),
    ("new-only", True, ("new",)),
)


@case(waits=True)
def connections_stay_open_through_all_four_phases():
    """At each of two proxies one connection, opened before the migration begins, goes from phase to phase with the clock: by
    whole seconds, so that the first and the last second of each phase are looked at too."""
    interval = 3
    with Fleet() as fleet:
        pools = Pools(fleet)
        start = int(time.time()) + 5
        config = pools.config(fleet, start, interval)
        clients = [fleet.proxy(config).client() for _ in range(2)]
        glances = {}
        for second in range(-3, 9):
            glances[second] = [pools.key(0, 0, f"second{second}-{number}-") for number in range(2)]
            for key in glances[second]:
                pools.own[0].ask(set_of(key, "old"), STORED)
                pools.own[2].ask(set_of(key, "new"), STORED)
        for second in range(-3, 9):
            name, reads_new, deletes = PHASES[second // interval + 1]
            with moment(start + second + 0.5):
                for client, key in zip(clients, glances[second]):
                    glance_at_phase(pools, client, reads_new, deletes, key)
            if second % interval == 1:
                with moment(start + second + 0.9):
                    for number, client in enumerate(clients):
                        look_at_phase(pools, client, reads_new, deletes, f"{name}-{number}-")


def glance_at_phase(pools, client, reads_new, deletes, key):
    """Looks where a get and a delete go, with few requests: both pools hold the key at their first nodes."""
    client.ask(get_of(key), hits((key, "new" if reads_new else "old")))
    client.ask(delete_of(key), DELETED)
    left = ["old" if "old" not in deletes else None, "new" if "new" not in deletes else None]
    check(f"what {key} left in the old pool and the new one", left, [pools.own[n].value_of(key) for n in (0, 2)])


class Chain:
    """Three pools of one, two and three nodes, through which two migrations go. What is looked at lies at the last node of each."""

    def __init__(self, fleet):
        self.pools = [fleet.nodes(count) for count in (1, 2, 3)]
        self.own = [pool[-1].client() for pool in self.pools]

    def config(self, fleet, starts, interval):
        """A migration at each of these starts, from each pool to the next."""
        return fleet.chain_config(self.pools, starts, interval, "sum")

    def key(self, stem):
        """A key that is placed at the last node of each pool."""
        keys = (key_at(2, 3, "sum", f"{stem}{n}-") for n in range(100))
        return next(key for key in keys if place_of(key, 2, "sum") == 1)

    def put(self, key, values):
        """Stores a value in each pool, past all proxies."""
        for own, value in zip(self.own, values):
            own.ask(set_of(key, value), STORED)

    def holds(self, key, wanted):
        """These are the values that the key has in each pool."""
        check(f"what the pools hold under {key}", wanted, [own.value_of(key) for own in self.own])


def look_at_hop(chain, one, other, reads, deletes, stem):
    """Looks where a set, a get and a delete of one proxy's client go, by what becomes of items at the nodes, and what the other
    proxy's client gets."""
    key = chain.key(stem)
    values = ["first", "second", "third"]
    chain.put(key, values)
    one.ask(get_of(key), hits((key, values[reads])))
    one.ask(set_of(key, "set"), STORED)
    values[reads] = "set"
    chain.holds(key, values)
    other.ask(get_of(key), hits((key, "set")))
    one.ask(delete_of(key), DELETED)
    chain.holds(key, [None if number in deletes else value for number, value in enumerate(values)])
    other.ask(get_of(key), MISS)


CHAIN_PHASES = (  # seconds from the first start on; the pool of gets and sets, and those of deletes
    (-1, 0, (0,)),
    (1, 0, (0, 1)),
    (3, 1, (0, 1)),
    (4.5, 1, (1,)),
    (6, 1, (1, 2)),
    (8, 2, (1, 2)),
    (9.5, 2, (2,)),
)


@case(waits=True)
def connections_stay_open_through_two_migrations_in_a_row():
    """At each of two proxies one connection, opened before the first of two migrations begins, goes through both with the clock,
    and through the second between them. What one client set in a phase the other deletes in the next one, and neither ever gets
    it again."""
    interval = 2
    with Fleet() as fleet:
        chain = Chain(fleet)
        start = int(time.time()) + 3
        config = chain.config(fleet, (start, start + 2 * interval + 1), interval)
        one, other = (fleet.proxy(config).client() for _ in range(2))
        gone, left = [], None
        for place, (second, reads, deletes) in enumerate(CHAIN_PHASES):
            with moment(start + second):
                look_at_hop(chain, one, other, reads, deletes, f"look{place}-")
                if left:  # where two pools are told, one of them never had it
                    other.ask(delete_of(left), DELETED if len(deletes) == 1 else NOT_FOUND)
                    chain.holds(left, [None, None, None])
                    gone.append(left)
                for key in gone:
                    one.ask(get_of(key), MISS)
                    other.ask(get_of(key), MISS)
                left = chain.key(f"left{place}-")
                one.ask(set_of(left, "v"), STORED)
                other.ask(get_of(left), hits((left, "v")))


@case
def each_phase_is_that_of_the_machines_clock():
    """Proxies that are started half an hour from each bound are in the phase of this program's clock, interval 3600 unsaid."""
    with Fleet() as fleet:
        pools = Pools(fleet)
        second = int(time.time())
        for place, (name, reads_new, deletes) in enumerate(PHASES):
            config = pools.config(fleet, second + HOUR // 2 - place * HOUR)
            look_at_phase(pools, fleet.proxy(config).client(), reads_new, deletes, f"{name}-")


def expect_gone(what, own, key):
    """A node comes to hold nothing under a key."""
    until = time.monotonic() + PATIENCE
    while (value := own.value_of(key)) is not None:
        if time.monotonic() > until:
            raise Wrong(what, None, value)
        time.sleep(0.01)


@case
def a_delete_answers_the_worse_of_both_pools():
    """Where one pool alone has the key the answer is NOT_FOUND, and where one pool's node doesn't answer the leg is lost.
    What the other pool had is deleted all the same: on loops a moment later, as nobody waits for the other leg there."""
    with Fleet() as fleet:
        pools = Pools(fleet)
        for begun in (HOUR // 2, HOUR + HOUR // 2):
            client = fleet.proxy(pools.config(fleet, int(time.time()) - begun)).client()
            for place, (old, new) in enumerate(((None, None), ("o", None), (None, "n"), ("o", "n"))):
                key = pools.key(0, 1, f"{begun}-{place}-")
                if old:
                    pools.own[0].ask(set_of(key, old), STORED)
                if new:
                    pools.own[3].ask(set_of(key, new), STORED)
                client.ask(delete_of(key), DELETED if old and new else NOT_FOUND)
                pools.lies(key)
        key = pools.key(0, 1, "lost")
        pools.put(key, 0, 1, "v")
        pools.old[0].kill()
        pools.own[0] = None
        client.ask(delete_of(key), LOST)
        expect_gone("what the new pool holds behind a lost leg", pools.own[3], key)
        key = pools.key(1, 1, "lost")
        pools.own[1].ask(set_of(key, "v"), STORED)
        pools.new[1].kill()
        client.ask(delete_of(key), LOST)
        expect_gone("what the old pool holds behind a lost leg", pools.own[1], key)


@case(waits=True)
def what_was_deleted_never_comes_back_where_clocks_are_apart():
    """Two proxies, of which one is two seconds behind: its migration begins so much later. While one of them reads from the
    old pool and the other from the new one, neither gets what the other deleted."""
    interval, apart = 3, 2
    with Fleet() as fleet:
        pools = Pools(fleet)
        start = int(time.time()) + 3
        ahead = fleet.proxy(pools.config(fleet, start, interval)).client()
        behind = fleet.proxy(pools.config(fleet, start + apart, interval)).client()
        with moment(start + 1):  # behind is in old-only, ahead in both-read-old
            key = pools.key(0, 0, "first")
            behind.ask(set_of(key, "1"), STORED)
            ahead.ask(get_of(key), hits((key, "1")))
            ahead.ask(delete_of(key), NOT_FOUND)
            behind.ask(get_of(key), MISS)
        with moment(start + interval + 1):  # behind reads the old pool, ahead the new one
            key = pools.key(1, 2, "second")
            behind.ask(set_of(key, "2"), STORED)
            ahead.ask(get_of(key), MISS)
            ahead.ask(set_of(key, "3"), STORED)
            ahead.ask(delete_of(key), DELETED)
            behind.ask(get_of(key), MISS)
            ahead.ask(get_of(key), MISS)
            ahead.ask(set_of(key, "4"), STORED)
            behind.ask(delete_of(key), NOT_FOUND)
            ahead.ask(get_of(key), MISS)
        with moment(start + 2 * interval + 1):  # behind is in both-read-new, ahead in new-only
            key = pools.key(0, 1, "third")
            ahead.ask(set_of(key, "5"), STORED)
            behind.ask(get_of(key), hits((key, "5")))
            behind.ask(delete_of(key), NOT_FOUND)
            ahead.ask(get_of(key), MISS)


class Talk:
    """What one client asks and is told, one request after another, with the moments before and behind each."""

    def __init__(self, client, number):
        self.client = client
        self.number = number
        self.sets, self.gets, self.deletes = [], [], []
        self.failed = None

    def go_on(self, until, keys):
        """Asks at random until a second since the epoch. A failure is kept for the case."""
        draw = random.Random(self.number)
        try:
            while time.time() < until:
                self.ask(draw.choice(("get", "get", "set", "delete")), draw.choice(keys))
                time.sleep(0.02)
        except Exception as error:  # of a thread of its own
            self.failed = error

    def ask(self, word, key):
        """One request. Each value is set once in all."""
        begun = time.monotonic()
        if word == "get":
            value = self.client.value_of(key)
            if value is not None:
                self.gets.append((key, value, begun, time.monotonic()))
        elif word == "set":
            value = f"{self.number}-{len(self.sets)}"
            self.client.ask(set_of(key, value), STORED)
            self.sets.append((key, value, begun, time.monotonic()))
        else:
            self.client.send(delete_of(key))
            line = self.client.line()
            check("the answer to a delete", True, line in (DELETED, NOT_FOUND) or line)
            self.deletes.append((key, begun, time.monotonic()))


def stale(talks):
    """The hits that bring back what was deleted, or what was never set under that key."""
    stored = {(key, value): (begun, ended) for talk in talks for key, value, begun, ended in talk.sets}
    deleted = [it for talk in talks for it in talk.deletes]
    for key, value, begun, ended in (it for talk in talks for it in talk.gets):
        if (key, value) not in stored or stored[key, value][0] > ended:
            yield f"{key} had {value}, which nobody had set"
        elif any(it[0] == key and stored[key, value][1] < it[1] and it[2] < begun for it in deleted):
            yield f"{key} had {value} behind an acknowledged delete"


@case(waits=True)
def no_client_of_many_gets_what_was_deleted():
    """Eight clients of two proxies, whose clocks are a second apart, ask at random through all phases: a hit was set by
    somebody under that key, and no delete that was sent behind the set was acknowledged before the get was sent."""
    interval = 2
    with Fleet() as fleet:
        pools = Pools(fleet)
        start = int(time.time()) + 2
        proxies = [fleet.proxy(pools.config(fleet, start + behind, interval)) for behind in (0, 1)]
        talks = [Talk(proxies[number % 2].client(), number) for number in range(8)]
        keys = [f"key{n}" for n in range(5)]
        threads = [threading.Thread(target=it.go_on, args=(start + 3 * interval, keys), daemon=True) for it in talks]
        for it in threads:
            it.start()
        for it in threads:
            it.join()
        for it in talks:
            if it.failed:
                raise it.failed
        check("hits that bring back what was deleted", [], list(stale(talks))[:3])
        check("that there were hits", True, any(it.gets for it in talks))
