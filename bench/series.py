"""The benchmark's own designs of any size, and the series that grows in pins, arcs and tests together. The same designs come out each time.

There are two kinds.
- Common clock: data arcs at random, mostly between near pins. Tests differ in their worst slack, and a reporter may leave many of them out.
- Split clock, made to cost as much as the writer could think of. No test can be left out by what all tests have in common: R has two branches with wide ranges,
  and one test hangs on the second; so no credit is shared by all tests, while every path has that of its branch, far more than slacks differ. And no arc can
  be passed over: the data pins are a chain, and of the arcs from one to the next each has a wider range than the one before it, so its paths are worse.
"""

import random
from typing import NamedTuple

import plans

PERIOD = 20_000


class Shape(NamedTuple):
    """The sizes of a design, and whether its clock is split."""
    split: bool
    pins: int
    arcs: int
    tests: int

    def name(self):
        """The kind and the sizes."""
        return f"{'split' if self.split else 'common'}-{self.pins}-{self.arcs}-{self.tests}"


# Pins, arcs and tests of the series that grows in all of them.
SIZES = [(16, 32, 4), (32, 64, 8), (64, 192, 16), (128, 448, 32), (256, 1024, 64)]


def ranged(chance, least, most):
    """A range of delays."""
    return sorted((chance.randint(least, most), chance.randint(least, most)))


def clock_counts(pins, split):
    """How many B, K and I a design has. With a split clock it has no I: a path from there has no credit."""
    return max(3, pins // 32), max(4, pins // 8), 0 if split else max(1, pins // 64)


def grow_clock(plan, chance, split, buffers, clocks):
    """R, the buffers as a tree of two at each, the K on the lower half of them. With a split clock the last B and K are a branch."""
    plan.pin("R", 0, 0 if split else 10)
    tree = buffers - 1 if split else buffers
    for place in range(buffers):
        branch = place == 0 or place >= tree
        pin = plan.pin("B")
        wide = (1_000, 41_000) if split and branch else ranged(chance, 100, 160)
        plan.arc(0 if branch else 1 + (place - 1) // 2, pin, *wide)
    for place in range(clocks):
        pin = plan.pin("K")
        last = split and place == clocks - 1
        plan.arc(buffers if last else chance.randint(1 + tree // 2, tree), pin, *ranged(chance, 20, 80))


def random_arcs(plan, chance, starts, data, arcs):
    """So many data arcs: one into each D, the rest anywhere; mostly from near pins, one of eight from any start."""
    ends = []
    for pin in list(data) + [chance.choice(data) for _ in range(arcs - len(data))]:
        near = (starts + [p for p in data if p < pin])[-16:]
        ends.append((chance.choice(starts if chance.random() < 0.125 else near), pin))
    chance.shuffle(ends)
    for start, end in ends:
        plan.arc(start, end, *ranged(chance, 5, 60))


def chained_arcs(plan, chance, starts, data, arcs):
    """So many data arcs, from one D to the next, into the first from any starts; each range wider than that of the arc before it."""
    for place, pin in enumerate(data):
        for wider in range(arcs // len(data) + (place < arcs % len(data))):
            plan.arc(data[place - 1] if place else chance.choice(starts), pin, 40 - wider, 40 + wider)


def plan_of(shape, clock_of=256, seed=""):
    """The design of a shape, with as many clock pins and inputs as a design of `clock_of` pins has: so in a series these do not grow with the pins."""
    chance = random.Random(f"{shape.name()}{seed}")
    plan = plans.Plan(PERIOD)
    buffers, clocks, inputs = clock_counts(clock_of, shape.split)
    grow_clock(plan, chance, shape.split, buffers, clocks)
    ks = [pin for pin, row in enumerate(plan.pins) if row[0] == "K"]
    own = ks.pop() if shape.split else None
    starts = ks + [plan.pin("I", *ranged(chance, 0, 300)) for _ in range(inputs)]
    data = [plan.pin("D") for _ in range(shape.pins - len(plan.pins))]
    if shape.split:
        plan.arc(own, data[-1], *ranged(chance, 5, 60))
        own_data = data.pop()
    (chained_arcs if shape.split else random_arcs)(plan, chance, starts, data, shape.arcs - len(plan.arcs))
    for _ in range(shape.tests - shape.split):
        plan.test(chance.choice(ks), chance.choice(data[len(data) // 2:]), chance.randint(0, 50), chance.randint(0, 50))
    if shape.split:
        plan.test(own, own_data)
    return plan


def sized(split, size, mode, k=16):
    """A name and a text: of the series in size, with a clock part of a design of so many pins."""
    shape = Shape(split, *size)
    return f"{shape.name()}-{mode}", plan_of(shape, size[0]).text(mode, k)
