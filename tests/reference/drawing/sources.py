"""What cases are drawn from: chance by a seed, of how many hops the configurations are, and of which format the scripts."""
import random

from .. import formats


class Source(random.Random):
    """Of three configurations one has several hops, and scripts are of format 1."""
    hops = (1, 1, 1, 1, 1, 1, 2, 3, 4)
    form = formats.ONE


class ChainSource(Source):
    """Each configuration has several hops."""
    hops = (2, 3, 4, 4)


class SecondSource(Source):
    """Scripts are of format 2."""
    form = formats.TWO
