"""Designs made to be dear: each kind makes the asking work hard in its own way. All are of the same few makers, whose numbers are free within ranges.

A design is fixed by its kind, its mode and its numbers. `worst.tsv` has the dearest that `bench/search` found of each kind in each mode, and `bench/run` measures
those. One plan does for both modes: an arc that is worse by n is n earlier and n later than its like.
"""

import random
from pathlib import Path
from types import SimpleNamespace
from typing import Callable, NamedTuple

import plans
import series

PINS, ARCS, TESTS, TIME = 256, 1024, 64, 1_000_000
MODES = ("setup", "hold")
STORE = Path(__file__).resolve().parent / "worst.tsv"


# ------------------------------------------------------------- a clock chain, layers of data pins, and tests in an order

RISING, FALLING, EQUAL, COUNTER, RANDOM = range(5)    # how the arcs into one pin differ
UP, DOWN, SHUFFLED, TURNS, REPLACED = range(5)        # an order of tests

# What each number is, and its range where a kind does not say another.
FREE = {
    "buffers": (1, 60),      # B in a chain below R
    "levels": (1, 60),       # of which the last so many are wide and drive the K of tests
    "own": (0, 1),           # a K for each level, or for each test its own
    "wide": (0, 10_000),     # how wide each of these is: the credit that each level adds
    "flops": (0, 100),       # K that no test has
    "hang": (0, 2),          # on R, at the chain's end, or all along the chain
    "drive": (0, 1),         # whether they start paths too, or only the K at the chain's end
    "root": (0, 1),          # whether one test hangs on R, so that all tests share R alone
    "data": (1, 240),        # data pins
    "lanes": (1, 8),         # in layers of so many
    "arcs": (ARCS, ARCS),    # arcs in all
    "gap": (0, 300),         # how much an arc is worse than the one before it
    "weigh": (RISING, RANDOM),
    "tests": (TESTS, TESTS),
    "step": (0, 150),        # how much a test is worse than the next in the order of its rank
    "ranks": (UP, REPLACED), # how the tests' ranks follow the levels: DOWN, the test that the shared bound takes first is the least bad
    "numbers": (UP, TURNS),  # in which order the tests are numbered
    "ends": (1, 8),          # how many of the last data pins have tests
    "seed": (0, 9_999),
}


def fitted(numbers):
    """The numbers, lessened where a design would be over the limits."""
    n = SimpleNamespace(**numbers)
    n.buffers = min(n.buffers, PINS - 6)
    n.clocks = min(n.tests if n.own else min(n.levels, n.buffers), PINS - 3 - n.root - n.buffers)
    n.levels = min(n.levels, n.buffers, n.clocks)
    n.flops = min(n.flops, PINS - 3 - n.root - n.buffers - n.clocks)
    n.data = min(n.data, PINS - 2 - n.root - n.buffers - n.clocks - n.flops)
    n.lanes = min(n.lanes, n.data)
    return n


def order_of(pattern, count, chance):
    """The numbers below `count` in an order. REPLACED has three numbers only: as many tests as rows are alike, nearly as many behind them are worse, the rest
    are better."""
    if pattern == REPLACED:
        return [1 if place < 16 else 2 if place < 31 else 0 for place in range(count)]
    order = list(range(count))
    if pattern == DOWN:
        order.reverse()
    elif pattern == SHUFFLED:
        chance.shuffle(order)
    elif pattern == TURNS:
        order = order[::2] + order[1::2]
    return order


def chained_clock(plan, n):
    """R and a chain of B. Gives the clock pins for tests, each with its credit, and the starts of paths."""
    chain = [plan.pin("R")]
    for place in range(n.buffers):
        pin = plan.pin("B")
        plan.arc(chain[-1], pin, 0, n.wide if place >= n.buffers - n.levels else 0)
        chain.append(pin)
    levels = [place * n.levels // n.clocks for place in range(n.clocks)]
    clocks = [(plan.pin("K"), n.wide * (level + 1)) for level in levels] + ([(plan.pin("K"), 0)] if n.root else [])
    for (pin, _), driver in zip(clocks, [chain[n.buffers - n.levels + 1 + level] for level in levels] + [0]):
        plan.arc(driver, pin, 0, 0)
    starts = [plan.pin("K")]
    plan.arc(chain[-1], starts[0], 0, 0)
    for place in range(n.flops):
        pin = plan.pin("K")
        plan.arc(chain[(0, -1, place % len(chain))[n.hang]], pin, 0, 0)
        if n.drive:
            starts.append(pin)
    return clocks, starts


def amounts_of(n, chance, degree, scale):
    """By how much each of the arcs into one pin is worse than the best that it could be."""
    if n.weigh == RANDOM:
        return [chance.randint(0, n.gap * degree) for _ in range(degree)]
    step = (n.gap, n.gap, 0, scale)[n.weigh]
    amounts = [step * turn for turn in range(degree)]
    return amounts[::-1] if n.weigh == FALLING else amounts


def layered_data(plan, n, chance, starts):
    """Layers of data pins, the arcs spread over all of them, each pin's from the whole layer before. Gives the data pins."""
    arcs = n.arcs - len(plan.arcs)
    data, before, layer, scale = [], starts, [], 1
    for place in range(n.data):
        pin = plan.pin("D")
        degree = max(1, arcs // n.data + (place < arcs % n.data))
        most = min(TIME // 2, max(n.gap * degree, 1 << 18))
        for turn, amount in enumerate(amounts_of(n, chance, degree, scale)):
            plan.arc(before[turn % len(before)], pin, most - min(most, amount), most + min(most, amount))
        layer.append(pin)
        data.append(pin)
        if len(layer) == n.lanes:
            before, layer = layer, []
            scale = scale * degree if scale * degree * (degree - 1) <= 1 << 18 else 1
    return data


def ranked_tests(plan, n, chance, clocks, data):
    """The tests, spread over the clock pins; one that hangs on R is the last of all."""
    levels = clocks[:-1] if n.root else clocks
    made = []
    for place, rank in enumerate(order_of(n.ranks, n.tests, chance)):
        clock, credit = levels[place * len(levels) // n.tests]
        worse = 1_000 + n.step * rank
        made.append((clock, data[-1 - place % min(n.ends, len(data))], min(TIME, worse + credit), min(TIME, worse)))
    if n.root:
        made[-1] = (clocks[-1][0], data[-1], 0, 0)
    for place in order_of(n.numbers, n.tests, chance):
        plan.test(*made[place])


def layered(**numbers):
    """A design of all these parts."""
    n = fitted(FREE_LEAST | numbers)
    chance = random.Random(n.seed)
    plan = plans.Plan(TIME)
    clocks, starts = chained_clock(plan, n)
    data = layered_data(plan, n, chance, starts)
    ranked_tests(plan, n, chance, clocks, data)
    return plan


FREE_LEAST = {name: most if least == most else least for name, (least, most) in FREE.items()}


# ------------------------------------------------------------- other makers

def branches(branches, flops, spread, wide, seed):
    """Branches of the clock with much credit each, every test within one of them; all values close together, so that many tests stay possible."""
    chance = random.Random(seed)
    plan = plans.Plan(100_000)
    plan.pin("R")
    buffers = [plan.pin("B") for _ in range(branches)]
    for pin in buffers:
        plan.arc(0, pin, 0, wide + chance.randint(0, 2_000))
    ks = [[] for _ in range(branches)]
    for place in range(max(flops, branches)):
        pin = plan.pin("K")
        plan.arc(buffers[place % branches], pin, 0, chance.randint(0, 1_000))
        ks[place % branches].append(pin)
    lanes = branch_data(plan, chance, ks, spread)
    for place in range(TESTS):
        lane, own = lanes[place % branches], ks[place % branches]
        plan.test(chance.choice(own), lane[-1 - place // branches % min(4, len(lane))], chance.randint(0, spread), chance.randint(0, spread))
    return plan


def branch_data(plan, chance, ks, spread):
    """The data pins in as many lanes as the clock has branches; mostly from near pins of the same lane, sometimes from a K of the branch."""
    lanes = [[] for _ in ks]
    pins, arcs = PINS - len(plan.pins), ARCS - len(plan.arcs)
    for place in range(pins):
        pin, lane, own = plan.pin("D"), lanes[place % len(ks)], ks[place % len(ks)]
        for _ in range(arcs // pins + (place < arcs % pins)):
            near = lane[-chance.choice([1, 2, 4, 8]):] if lane and chance.random() < 0.93 else own
            early = 500 + chance.randint(0, spread)
            plan.arc(chance.choice(near), pin, early, early + chance.randint(0, spread))
        lane.append(pin)
    return lanes


def common(seed):
    """A design at the limits of `series.py`, with a common clock."""
    return series.plan_of(series.Shape(False, PINS, ARCS, TESTS), seed=seed)


def split(seed):
    """The same with a split clock: the bound that all tests share leaves none out."""
    return series.plan_of(series.Shape(True, PINS, ARCS, TESTS), seed=seed)


def plain(seed):
    """A random design of one of the shapes of the second implementation's tests, grown to the limits."""
    return plans.grown_plan(seed, PINS, ARCS, TESTS)


# ------------------------------------------------------------- kinds

class Kind(NamedTuple):
    """A maker of plans, the range of each of its numbers, what the kind is, and whether it defeats both bounds: what all tests share, and each test's own."""
    make: Callable
    ranges: dict
    what: str
    both: bool = False


def layers(what, both=False, **ranges):
    """A kind of `layered` designs."""
    return Kind(layered, FREE | ranges, what, both)


SEEDS = {"seed": (0, 9_999)}
KINDS = {
    "deep clock": layers("tests at the end of a long clock chain, flip-flops anywhere on it", buffers=(100, 250), levels=(1, 8), flops=(20, 140)),
    "shared bound": layers("all tests share R alone, so the bound that they share says little", root=(1, 1), wide=(1_000, 10_000), levels=(2, 60)),
    "both bounds": layers("each test in the order of that bound is worse than all before it: its own least value does not leave it out either", both=True,
                          wide=(5_000, 10_000), levels=(2, 60), ranks=(DOWN, DOWN), step=(1, 150), root=(0, 0)),
    "late tests": layers("each test is worse than all of lower numbers", numbers=(DOWN, DOWN), ranks=(DOWN, DOWN), step=(1, 150), wide=(1_000, 10_000)),
    "early tests": layers("each test is worse than all of higher numbers", numbers=(UP, UP), ranks=(DOWN, DOWN), step=(1, 150), wide=(1_000, 10_000)),
    "turns": layers("the worst paths are of many tests in turn", step=(0, 4), gap=(0, 12), levels=(2, 60), wide=(1_000, 10_000)),
    "replaced rows": layers("16 tests are alike, and 15 of higher numbers push their paths out again", both=True, ranks=(REPLACED, REPLACED), numbers=(UP, UP),
                            step=(1, 20), wide=(5_000, 10_000), levels=(2, 60), root=(0, 0)),
    "counter": layers("2^n paths or more, slacks all different as far as delays allow", weigh=(COUNTER, COUNTER), tests=(1, TESTS), arcs=(64, ARCS)),
    "ties": layers("2^n paths or more of equal slack", weigh=(EQUAL, EQUAL), tests=(1, TESTS), step=(0, 1)),
    "long chain": layers("paths of some 250 arcs, as many parallel arcs as the limits allow", buffers=(1, 3), levels=(1, 3), flops=(0, 2), data=(235, 250),
                         lanes=(1, 2)),
    "parallel arcs": layers("hundreds of arcs into each of a few data pins", data=(1, 12), lanes=(1, 2)),
    "wide fan-in": layers("many flip-flops drive each data pin", drive=(1, 1), flops=(60, 245), data=(1, 60), lanes=(1, 60), buffers=(1, 120), levels=(1, 40)),
    "any": layers("any of these together", buffers=(1, 250), flops=(0, 245), data=(1, 250), lanes=(1, 60), step=(0, 10_000), wide=(0, 20_000)),
    "branches": Kind(branches, {"branches": (2, 32), "flops": (8, 64), "spread": (0, 300), "wide": (10_000, 60_000)} | SEEDS,
                     "a clock of many branches, tests and data of each apart, random and close together"),
    "split clock": Kind(split, SEEDS, "the split clock of the series"),
    "common clock": Kind(common, SEEDS, "random, the common clock of the series"),
    "random": Kind(plain, SEEDS, "random, of seven shapes"),
}


class Made(NamedTuple):
    """A dear design: its kind, its mode and its numbers."""
    kind: str
    mode: str
    numbers: dict

    def plan(self):
        """The design."""
        kind = KINDS[self.kind]
        return kind.make(**{name: self.numbers.get(name, kind.ranges[name][0]) for name in kind.ranges})

    def text(self, k=16):
        """The design as a text, with its `ask` line."""
        return self.plan().text(self.mode, k)

    def line(self):
        """The design as a line of the store. Numbers that the kind leaves no choice of are left out."""
        free = {name for name, (least, most) in KINDS[self.kind].ranges.items() if least < most}
        return "\t".join([self.kind, self.mode, " ".join(f"{name}={value}" for name, value in self.numbers.items() if name in free)])


def made_of(line):
    """The design of a line of the store."""
    kind, mode, numbers = line.split("\t")
    return Made(kind, mode, {name: int(value) for name, value in (pair.split("=") for pair in numbers.split())})


def stored():
    """The dearest designs found so far, in the order of the store."""
    return [made_of(line) for line in STORE.read_text(encoding="utf-8").splitlines()] if STORE.exists() else []
