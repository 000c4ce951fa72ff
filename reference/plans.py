"""Designs for the tests: the bench sheet, designs made by hand, and random ones.

A plan is a design written down by a test.  It gives its own text and its own
table, straight from document 01, without help of the program under test.
"""

import random
from dataclasses import dataclass, field

# The bench sheet of document 01, and what the document says `toppaths` prints.
SHEET = b"""\
design\t7\t7\t2\t200
pin\tR\t0\t10
pin\tB
pin\tK
pin\tK
pin\tI\t5\t20
pin\tD
pin\tD
arc\t0\t1\t40\t60
arc\t1\t2\t10\t15
arc\t1\t3\t20\t30
arc\t2\t5\t100\t130
arc\t3\t5\t90\t120
arc\t4\t6\t30\t50
arc\t5\t6\t10\t20
test\t3\t6\t25\t12
test\t2\t5\t20\t10
ask\tsetup\t3
"""

SHEET_PRINTED = b"""\
path\t1\t30\t30\t0\t2\t3\t6
path\t2\t35\t40\t0\t3\t4\t6
path\t3\t40\t30\t1\t3\t4
end\t3\t5
"""

# The sheet as a table: P, A, T, period; then pins, arcs, tests.
SHEET_TABLE = [
    7, 7, 2, 200,
    0, 0, 10, 1, 0, 0, 2, 0, 0, 2, 0, 0, 3, 5, 20, 4, 0, 0, 4, 0, 0,
    0, 1, 40, 60, 1, 2, 10, 15, 1, 3, 20, 30, 2, 5, 100, 130,
    3, 5, 90, 120, 4, 6, 30, 50, 5, 6, 10, 20,
    3, 6, 25, 12, 2, 5, 20, 10,
]

SHEET_LINES = SHEET.split(b"\n")[:-1]


def sheet_with(changes):
    """The sheet's text with whole lines replaced, by line number from 1."""
    lines = list(SHEET_LINES)
    for n, content in changes.items():
        lines[n - 1] = content
    return b"".join(content + b"\n" for content in lines)


def table_with(changes, table=SHEET_TABLE):
    """The table with single places changed."""
    changed = list(table)
    for place, value in changes.items():
        changed[place] = value
    return changed


@dataclass
class Plan:
    """pins: (letter, early, late); arcs: (from, to, early, late);
    tests: (clock, data, setup, hold)."""
    period: int = 1000
    pins: list = field(default_factory=list)
    arcs: list = field(default_factory=list)
    tests: list = field(default_factory=list)

    def pin(self, letter, early=0, late=0):
        """Add a pin; gives its number."""
        self.pins.append((letter, early, late))
        return len(self.pins) - 1

    def arc(self, start, end, early=0, late=None):
        """Add an arc; gives its number.  With one delay it is both early and late."""
        self.arcs.append((start, end, early, early if late is None else late))
        return len(self.arcs) - 1

    def test(self, clock, data, setup=0, hold=0):
        """Add a test; gives its number."""
        self.tests.append((clock, data, setup, hold))
        return len(self.tests) - 1

    def table(self):
        """The design as document 01's table."""
        table = [len(self.pins), len(self.arcs), len(self.tests), self.period]
        for letter, early, late in self.pins:
            table += ["RBKID".index(letter), early, late]
        for quad in self.arcs + self.tests:
            table += quad
        return table

    def text(self, mode="setup", k=1):
        """The design as document 01's text, with an `ask` line."""
        lines = [("design", len(self.pins), len(self.arcs), len(self.tests), self.period)]
        for letter, early, late in self.pins:
            lines.append(("pin", letter, early, late) if letter in "RI" else ("pin", letter))
        lines += [("arc",) + quad for quad in self.arcs]
        lines += [("test",) + quad for quad in self.tests]
        lines.append(("ask", mode, k))
        return "".join("\t".join(map(str, line)) + "\n" for line in lines).encode("ascii")


def small_clock(root=(0, 0)):
    """R, one K on it, and an I: pins 0, 1, 2, and arc 0."""
    plan = Plan()
    plan.pin("R", *root)
    plan.pin("K")
    plan.pin("I")
    plan.arc(0, 1)
    return plan


def counting_plan(number):
    """A design with one test that has exactly this many paths (at least 1), all delays 0.

    Binary writing: the first data pin has one path; each next one has two arcs
    from the one before it, and one more from the I if the next binary digit is 1.
    """
    plan = small_clock()
    data = plan.pin("D")
    plan.arc(2, data)
    for digit in bin(number)[3:]:
        before, data = data, plan.pin("D")
        plan.arc(before, data)
        plan.arc(before, data)
        if digit == "1":
            plan.arc(2, data)
    plan.test(1, data)
    return plan


def ladder_plan(levels):
    """From the I over so many levels of two arcs each, of delay 0 and 1: arcs 1 + 2i and 2 + 2i."""
    plan = small_clock()
    before = 2
    for _ in range(levels):
        data = plan.pin("D")
        plan.arc(before, data, 0)
        plan.arc(before, data, 1)
        before = data
    plan.test(1, before)
    return plan


# The shapes of random designs: how often each kind of pin, how far delays go, how
# deep the clock tree (1 a chain, 0 at random), how many arcs more than one go into
# a data pin, how many of those are doubled, how often they come from a pin nearby.
SHAPES = {
    "equal slacks": dict(kinds="BKKIDDDDD", delay=1, depth=0.5, more=2, doubled=0.2, near=0.5),
    "parallel arcs": dict(kinds="BKIDDD", delay=2, depth=0.5, more=1, doubled=0.9, near=0.3),
    "deep clock": dict(kinds="BBBBBKKIDDD", delay=40, depth=1.0, more=2, doubled=0.2, near=0.0),
    "flat clock": dict(kinds="KKKKIDDD", delay=40, depth=0.0, more=3, doubled=0.2, near=0.0),
    "long paths": dict(kinds="BKIDDDDDDDD", delay=3, depth=0.5, more=1, doubled=0.2, near=0.9),
    "wide delays": dict(kinds="BBKKKIDDDDD", delay=1_000_000, depth=0.6, more=3, doubled=0.1,
                        near=0.3),
    "one flip-flop": dict(kinds="BBDDD", delay=9, depth=0.8, more=2, doubled=0.3, near=0.5),
}


def random_range(chance, limit):
    """An early and a late at most the limit, early at most late."""
    return tuple(sorted((chance.randint(0, limit), chance.randint(0, limit))))


def random_kinds(chance, kinds, pins):
    """Kinds in an order that allows every pin its arcs; some I and D may stand before R."""
    letters = chance.choice(("R", "R", "IR", "IDR", "IIDDR"))
    letters += chance.choice(("", "B", "BB")) + "K"
    while len(letters) < pins:
        letters += chance.choice(kinds)
    return letters


def random_driver(chance, drivers, near):
    """One of the pins that may drive, often one of the two nearest."""
    return chance.choice(drivers[-2:] if chance.random() < near else drivers)


def random_arcs(chance, plan, shape):
    """One arc into each B and K, one or more into each D, in a shuffled order."""
    letters = [letter for letter, _, _ in plan.pins]
    ends = []
    for pin, letter in enumerate(letters):
        drivers = [p for p in range(pin) if letters[p] in ("RB" if letter in "BK" else "KID")]
        if letter in "BK":
            ends.append((drivers[-1] if chance.random() < shape["depth"]
                         else chance.choice(drivers), pin))
        elif letter == "D":
            for _ in range(1 + chance.randint(0, shape["more"])):
                ends.append((random_driver(chance, drivers, shape["near"]), pin))
                if chance.random() < shape["doubled"]:
                    ends.append(ends[-1])
    chance.shuffle(ends)
    for start, end in ends:
        plan.arc(start, end, *random_range(chance, shape["delay"]))


def random_plan(seed, pins=None):
    """A random accepted design, the same for the same seed; T may be 0."""
    chance = random.Random(seed)
    shape = SHAPES[sorted(SHAPES)[seed % len(SHAPES)]]
    plan = Plan(period=chance.choice((1, 100, 1_000_000)))
    for letter in random_kinds(chance, shape["kinds"], pins or chance.randint(2, 18)):
        plan.pin(letter, *(random_range(chance, shape["delay"]) if letter in "RI" else ()))
    random_arcs(chance, plan, shape)
    clocks = [p for p, pin in enumerate(plan.pins) if pin[0] == "K"]
    data = [p for p, pin in enumerate(plan.pins) if pin[0] == "D"]
    if data:
        for _ in range(chance.choice((0, 1, 2, 2, 3, 4, 5, 6))):
            plan.test(chance.choice(clocks), chance.choice(data),
                      chance.randint(0, shape["delay"]), chance.randint(0, shape["delay"]))
    return plan


# ---- designs at the limits, and clock trees of one form

def clock_chain(levels, root=(0, 0), step=(0, 0)):
    """R and so many B behind each other, each arc of this range; pin 0 is R, pin n the n-th B."""
    plan = Plan()
    plan.pin("R", *root)
    for level in range(levels):
        plan.arc(level, plan.pin("B"), *step)
    return plan


def deep_clock_plan(levels, depths, step=(1, 3)):
    """A chain of B with a K hung at each of these depths, one D that all K drive, and a test at each K."""
    plan = clock_chain(levels, (2, 5), step)
    flops = [plan.pin("K") for _ in depths]
    data = plan.pin("D")
    for flop, depth in zip(flops, depths):
        plan.arc(depth, flop, *step)
        plan.arc(flop, data, 10, 20)
    for flop in flops[:64]:
        plan.test(flop, data, 4, 2)
    return plan


def flat_clock_plan(flops):
    """So many K on R, with ranges that repeat, each driving the next one's D; some tests share a D."""
    plan = Plan(period=30)
    plan.pin("R", 1, 9)
    for flop in range(flops):
        plan.arc(0, plan.pin("K"), flop % 3, 3 + flop % 5)
    for flop in range(flops):
        data = plan.pin("D")
        plan.arc(1 + flop, data, 2, 5)
        plan.arc(1 + (flop + 1) % flops, data, 3, 5)
        if flop < 32:
            plan.test(1 + flop, data, 1, 1)
            plan.test(1 + flop // 2, data, 1, 1)
    return plan


def longest_plan(flops_apart=False):
    """Delays and times at their limit along the longest chain that 256 pins allow: of data pins, or of clock pins up to two K far apart."""
    if flops_apart:
        plan = clock_chain(251, (0, 1_000_000), (0, 1_000_000))
        near, far, data = plan.pin("K"), plan.pin("K"), plan.pin("D")
        plan.arc(0, near, 0, 1_000_000)
        plan.arc(251, far, 1_000_000, 1_000_000)
        for flop in (near, far):
            plan.arc(flop, data, 0, 1_000_000)
            plan.test(flop, data, 1_000_000, 1_000_000)
        return plan
    plan = small_clock((0, 1_000_000))
    plan.pins[2] = ("I", 1_000_000, 1_000_000)
    plan.period = 1
    for pin in range(2, 255):
        plan.arc(pin, plan.pin("D"), 1_000_000, 1_000_000)
    plan.test(1, 255, 1_000_000, 0)
    return plan


def full_plan():
    """256 pins, 1,024 arcs and 64 tests, small numbers: R, 20 B in pairs, 24 K, 16 I, the rest D."""
    plan = Plan(period=90)
    plan.pin("R", 3, 7)
    for buffer in range(20):
        plan.arc(max(0, buffer - 1), plan.pin("B"), buffer % 4, 4 + buffer % 3)
    for flop in range(24):
        plan.arc(flop % 21, plan.pin("K"), 1, 2 + flop % 4)
    for start in range(16):
        plan.pin("I", start, start + 5)
    while len(plan.pins) < 256:
        data = plan.pin("D")
        plan.arc(21 + data % 40, data, data % 7, 7 + data % 5)
    for extra in range(1024 - len(plan.arcs)):
        data = 62 + extra % 194
        plan.arc(data - 1 - extra % (data - 40 if data < 80 else 40), data, extra % 6, 6 + extra % 9)
    for test in range(64):
        plan.test(21 + test % 24, 255 - test % 50, test % 5, test % 3)
    return plan


def grown_plan(seed, pins, arcs, tests):
    """A random design with so many pins, and with arcs into data pins and tests added up to these numbers."""
    chance = random.Random(seed)
    plan = random_plan(seed, pins)
    starts = [p for p, pin in enumerate(plan.pins) if pin[0] in "KID"]
    clocks = [p for p, pin in enumerate(plan.pins) if pin[0] == "K"]
    data = [p for p, pin in enumerate(plan.pins) if pin[0] == "D"]
    limit = max(late for _, _, _, late in plan.arcs)
    while len(plan.arcs) < arcs:
        end = chance.choice(data)
        plan.arc(chance.choice([p for p in starts if p < end]), end, *random_range(chance, limit))
    while len(plan.tests) < tests:
        plan.test(chance.choice(clocks), chance.choice(data), chance.randint(0, limit), chance.randint(0, limit))
    return plan
