"""Series of designs that grow in one quantity while all else stays: clock depth, tests, arcs, pins, k, and the stages of a counter.

A series is over designs of which nothing is left out, or it would show how much is left out and not what it costs (`dear.py` makes them):

- deep: 60 flip-flops on R and tests at the end of a clock chain, so that credit is looked for along the whole of it;
- deep and wide: the same with as many flip-flops as buffers;
- both: each test in the order of the bound that all share is worse than those before it, so neither that bound nor its own least value leaves it out;
- turns: tests that are all alike, so that the worst paths are of many tests in turn;
- counter: 2^n paths that all differ in slack.
"""

from typing import Callable, NamedTuple

import dear

MODES = dear.MODES


class Growth(NamedTuple):
    """A series: what grows, what stays, its sizes, and for each family the text of a size in a mode."""
    quantity: str
    fixed: str
    sizes: tuple
    families: dict[str, Callable]

    def name(self, family, size, mode):
        """The name of one of its designs."""
        return f"{family}-{mode}, {self.quantity} {size}"

    def texts(self):
        """Names and texts of all its designs."""
        return {self.name(family, size, mode): text(size, mode) for family, text in self.families.items() for size in self.sizes for mode in MODES}


BOTH = {"buffers": 8, "levels": 8, "wide": 10_000, "data": 200, "gap": 100, "step": 1, "ranks": dear.DOWN, "numbers": dear.UP}
ALIKE = {"step": 0, "gap": 2}


def both(mode, k=16, **numbers):
    """A design that defeats both bounds."""
    return dear.layered(**(BOTH | numbers)).text(mode, k)


def turns(mode, k=16, **numbers):
    """A design whose tests are all alike."""
    return both(mode, k, **(ALIKE | numbers))


def deep(depth, mode, flops=60):
    """A clock chain of so many buffers, flip-flops on R. Behind it always the same data pins and arcs."""
    return both(mode, buffers=depth, levels=4, flops=flops, hang=0, data=20, arcs=800 + depth + flops)


def deep_and_wide(depth, mode):
    """The same with as many flip-flops as buffers."""
    return deep(depth, mode, depth)


def counter(stages, mode):
    """A chain of so many pins with two arcs into each."""
    return dear.layered(buffers=1, levels=1, data=stages, arcs=3 + 2 * stages, weigh=dear.COUNTER, tests=1).text(mode, 16)


def of_both(change):
    """The two families whose sizes come from what is changed in them."""
    return {"both": lambda size, mode: both(mode, **change(size)), "turns": lambda size, mode: turns(mode, **change(size))}


SERIES = [
    Growth("clock depth", "64 tests, 20 data pins, 795 data arcs", (10, 30, 50, 70, 90, 110), {"deep": deep, "deep and wide": deep_and_wide}),
    Growth("tests", "218 pins, 1,024 arcs", (4, 16, 28, 40, 52, 64), of_both(lambda size: {"tests": size})),
    Growth("arcs", "218 pins, 64 tests", (324, 464, 604, 744, 884, 1024), of_both(lambda size: {"arcs": size})),
    Growth("pins", "1,024 arcs, 64 tests", (96, 128, 160, 192, 224, 256), of_both(lambda size: {"data": size - 18})),
    Growth("k", "218 pins, 1,024 arcs, 64 tests", (1, 4, 7, 10, 13, 16), of_both(lambda size: {"k": size})),
    Growth("stages of a counter", "one test, 2^n paths", (3, 6, 9, 12, 15, 18), {"counter": counter}),
]


# ------------------------------------------------------------- how it grows

def line_of(sizes, counts):
    """The straight line nearest to the counts: where it begins, how much it rises for each, and how far the worst count is off it, as a part of that count."""
    x0, y0 = sum(sizes) / len(sizes), sum(counts) / len(counts)
    slope = sum((x - x0) * (y - y0) for x, y in zip(sizes, counts)) / sum((x - x0) ** 2 for x in sizes)
    off = max(abs(y0 + slope * (x - x0) - y) / y for x, y in zip(sizes, counts))
    return y0 - slope * x0, slope, off


def bend_of(sizes, counts):
    """By what part of itself the last count is above the straight line through the first half of the series; below 0 if it grows less than straight."""
    half = (len(sizes) + 1) // 2
    start, slope, _ = line_of(sizes[:half], counts[:half])
    return (counts[-1] - (start + slope * sizes[-1])) / counts[-1]
