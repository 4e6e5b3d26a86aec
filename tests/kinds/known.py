"""What is known of a service by who drove it, sample by sample: a number, or a least and a greatest one."""
import collections
import pathlib
import re

from wanted import Wrong, check

PAGE = pathlib.Path(__file__).resolve().parent.parent.parent / "docs/METRICS.md"
FAMILY = re.compile(r"^\| `(migctl_[a-z_]+)` \|", re.MULTILINE)
BOUNDS = "0.0001 0.00025 0.0005 0.001 0.0025 0.005 0.01 0.025 0.05 0.1 0.25 0.5 1 2.5 5 +Inf".split()  # by docs/METRICS.md
HISTOGRAM = "migctl_proxy_leg_seconds"


def families():
    """The names of all families, by their page."""
    return set(FAMILY.findall(PAGE.read_text(encoding="utf-8")))


def family_of(name):
    """The family that a sample belongs to."""
    for tail in ("_bucket", "_sum", "_count"):
        if name.startswith(HISTOGRAM):
            name = name.removesuffix(tail)
    return name


def compare(what, known, samples):
    """Each sample that is told is known, each known one is told, and each is as it is known. Gives the families."""
    check(f"the samples that {what} doesn't tell", [], sorted(set(known) - set(samples)))
    check(f"the samples of {what} that nobody knows of", [], sorted(set(samples) - set(known)))
    for name, number in known.items():
        least, most = number if isinstance(number, tuple) else (number, number)
        if not least <= samples[name] <= most:
            raise Wrong(f"{name} of {what}", number, samples[name])
    return {family_of(name[0]) for name in known}


class Legs:
    """What legs took: of each a least and a greatest time, as who asked and who answered measured it."""

    def __init__(self):
        self.spans = []

    def add(self, least, most):
        """One more."""
        self.spans.append((least, most))

    def has_between(self, below, bound):
        """Whether one is known to have taken longer than one bound, and no longer than the next."""
        return any(below < least and most <= bound for least, most in self.spans)

    def known(self):
        """What the histogram has to tell."""
        buckets = {
            (f"{HISTOGRAM}_bucket", bound): (
                sum(most < float(bound) for _, most in self.spans),
                sum(least <= float(bound) for least, _ in self.spans),
            )
            for bound in BOUNDS
        }
        whole = len(self.spans)
        grain = 1e-6 * whole + 1e-6
        return buckets | {
            (f"{HISTOGRAM}_bucket", "+Inf"): whole,
            (f"{HISTOGRAM}_count",): whole,
            (f"{HISTOGRAM}_sum",): (sum(least for least, _ in self.spans) - grain, sum(most for _, most in self.spans) + grain),
        }


class Cache:
    """What a node of so many items holds and counts. The one that was used longest ago goes first."""

    def __init__(self, capacity):
        self.capacity = capacity
        self.items = collections.OrderedDict()
        self.counts = collections.Counter()

    def set(self, key, value):
        """Stores a value."""
        self.counts["sets"] += 1
        self.items[key] = value
        self.items.move_to_end(key)
        if len(self.items) > self.capacity:
            self.items.popitem(last=False)
            self.counts["evictions"] += 1

    def get(self, key):
        """The value of a key; nothing at a miss."""
        if key in self.items:
            self.items.move_to_end(key)
        self.counts["hit" if key in self.items else "miss"] += 1
        return self.items.get(key)

    def delete(self, key):
        """Drops a key, and says whether it was there."""
        there = self.items.pop(key, None) is not None
        self.counts["deleted" if there else "not found"] += 1
        return there

    def known(self, address):
        """What the node of this address has to tell of that."""
        return {
            ("migctl_node_info", address): 1,
            ("migctl_node_items",): len(self.items),
            ("migctl_node_capacity_items",): self.capacity,
            **{("migctl_node_gets_total", it): self.counts[it] for it in ("hit", "miss")},
            ("migctl_node_sets_total",): self.counts["sets"],
            **{("migctl_node_deletes_total", it): self.counts[it] for it in ("deleted", "not found")},
            ("migctl_node_evictions_total",): self.counts["evictions"],
        }
