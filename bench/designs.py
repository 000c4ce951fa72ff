"""The designs that the benchmark measures: stored ones, dear ones, and texts that are dear to read. Those of the series are in `series.py`."""

import tarfile
from collections import Counter
from pathlib import Path
from typing import NamedTuple

import dear
import plans

BOTH = ("shallow-hold", "worst-setup")  # the stored designs that defeat both bounds
FOLDER = Path(__file__).resolve().parent / "designs"
K = 16


class Design(NamedTuple):
    """A design of the benchmark: its name, its text, and its output where an independent model has made one."""
    name: str
    text: bytes
    stored: bytes | None = None

    def size(self):
        """Arcs times tests, as its first line says."""
        _, arcs, tests, _ = map(int, self.text.split(b"\n", 1)[0].split(b"\t")[1:])
        return arcs * tests

    def asked(self, k):
        """The same design, asked for k paths."""
        return self if k == K else Design(f"{self.name} k={k}", self.text[:self.text.rindex(b"\t") + 1] + b"%d\n" % k)


def limits():
    """Three designs at the limits, each in both modes."""
    return [Design(path.stem, path.read_bytes(), path.with_suffix(".out").read_bytes()) for path in sorted(FOLDER.glob("*.in"))]


def adverse():
    """Designs made to be dear, stored with their outputs."""
    with tarfile.open(FOLDER / "adverse.tar.xz") as archive:
        files = {member.name: archive.extractfile(member).read() for member in archive}
    return [Design(name[:-3], text, files[name[:-3] + ".out"]) for name, text in files.items() if name.endswith(".in")]


class Dear(NamedTuple):
    """A design of bench/worst.tsv, and what it is."""
    made: dear.Made
    design: Design


def dearest():
    """The dearest designs that were found of each kind."""
    found, names = [], Counter()
    for made in dear.stored():
        name = f"{made.kind}, {made.mode}"
        names[name] += 1
        found.append(Dear(made, Design(name if names[name] == 1 else f"{name}, {names[name]}", made.text(K))))
    return found


# ------------------------------------------------------------- texts that are dear to read

def short_numbers():
    """Every number is of one digit: ten pins, and as many arcs and tests as may be."""
    plan = plans.Plan(1)
    plan.pin("R")
    plan.arc(0, plan.pin("K"))
    for _ in range(8):
        pin = plan.pin("D")
        plan.arc(pin - 1, pin)
    while len(plan.arcs) < dear.ARCS:
        plan.arc(8, 9)
    for _ in range(dear.TESTS):
        plan.test(1, 9)
    return plan


def long_numbers():
    """Every delay and time is of seven digits, and pins are of three."""
    plan = plans.Plan(dear.TIME)
    plan.pin("R", dear.TIME, dear.TIME)
    plan.arc(0, plan.pin("K"), dear.TIME)
    for _ in range(dear.PINS - 2):
        pin = plan.pin("D")
        plan.arc(pin - 1, pin, dear.TIME)
    while len(plan.arcs) < dear.ARCS:
        plan.arc(254, 255, dear.TIME)
    for _ in range(dear.TESTS):
        plan.test(1, 255, dear.TIME, dear.TIME)
    return plan


def inputs_alone():
    """R and inputs, no arc and no test."""
    plan = plans.Plan(1)
    plan.pin("R")
    for _ in range(dear.PINS - 1):
        plan.pin("I")
    return plan


def buffers_alone():
    """R and a chain of buffers: the shortest lines that there are."""
    return plans.clock_chain(dear.PINS - 1)


TEXTS = {"short numbers": short_numbers, "long numbers": long_numbers, "inputs alone": inputs_alone, "buffers alone": buffers_alone}


def texts():
    """Texts that are dear to read."""
    return [Design(name, make().text("setup", K)) for name, make in TEXTS.items()]


def smallest():
    """The smallest text with all the lines that a text must have."""
    plan = plans.Plan(1)
    plan.pin("R")
    return Design("smallest", plan.text("setup", K))
