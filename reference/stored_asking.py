"""The stored cases of the program `cases_asking`: tables, right and damaged, with mode, k, room and work area, and what the second implementation says of
each.

    python3 reference/stored_asking.py           writes crates/cases_asking/data/askings and crates/cases_asking/stdout
    python3 reference/stored_asking.py --check   says whether both stand as this program makes them; exit status 1 if not

For each asking the program prints the answer and a sum over the whole room and over the whole work area as they are afterwards, so that a wrong row, a place
written behind the last row or on a refusal, and a work area that is not cleared all show.
"""

import random

import plans
import toppaths
from stored import keep, line_of, numbers, packed, sum_of, sum_signed
from tests_cases import members_of

ROOM_FILL = -7
WORK_FILL = 5
WORK = toppaths.WORK


def damaged_sheets(chance):
    """The sheet's table with each single place set to values around every limit, and with lengths that do not fit."""
    table = plans.SHEET_TABLE
    for place in range(len(table)):
        for value in (0, 1, 2, 3, 4, 5, 6, 7, 8, 65, 257, 1000000, 1000001, 4294967295):
            yield plans.table_with({place: value})
    for _ in range(400):
        yield plans.table_with({chance.randrange(len(table)): chance.choice((0, 1, 2, 3, 4, 5, 6, 7, 50, 1000001)) for _ in range(chance.randrange(2, 4))})
    for length in range(len(table)):
        yield table[:length]
    yield table + [0]
    yield [256, 1024, 64, 1] + [0] * 10
    yield [1431655765, 0, 0, 1, 0, 0, 0]
    yield [1, 1073741824, 0, 1, 0, 0, 0]
    yield [0, 0, 0, 1]
    yield []


def random_tables(chance):
    """Random designs of every shape and size, and the same damaged."""
    for seed in range(1400):
        yield plans.random_plan(seed).table()
    for seed in range(1400, 1500):
        yield plans.random_plan(seed, pins=20 + seed % 30).table()
    for seed in range(500):
        table = plans.random_plan(3000 + seed).table()
        yield plans.table_with({chance.randrange(len(table)): chance.choice((0, 1, 2, 3, 4, 9, 1000001))}, table)


def loose_tables(chance):
    """Random designs with one arc taken out, or one arc more into a pin: wrong numbers of arcs into pins."""
    for seed in range(200):
        plan = plans.random_plan(5000 + seed)
        if seed % 4:
            del plan.arcs[chance.randrange(len(plan.arcs))]
        else:
            plan.arcs.append(chance.choice([arc for arc in plan.arcs if plan.pins[arc[1]][0] in "BK"]))
        yield plan.table()


def counted_tables():
    """Designs whose number of paths is known: around the cap, around 2^32 and 2^64, and ladders."""
    for number in (1, 2, 3, 15, 16, 17, 10**9 - 1, 10**9, 10**9 + 1, 2**32 - 1, 2**32, 2**32 + 1, 2**64 - 1, 2**64, 2**64 + 1):
        yield plans.counting_plan(number).table()
    for levels in (1, 4, 5, 31, 64, 100, 253):
        yield plans.ladder_plan(levels).table()
    twice = plans.counting_plan(10**9 - 1)
    twice.tests.append(twice.tests[0])
    yield twice.table()


def limit_tables():
    """Designs at the limits of pins, arcs and tests."""
    for name, text in sorted(members_of("limits.tar.xz").items()):
        if name.endswith("-setup.in"):
            room = [0] * 5124
            answer, after = toppaths.read(text, room)
            yield after[:answer[1]]


def many_tables():
    """More random designs, each with a test at least."""
    for seed in range(10000, 11400):
        plan = plans.random_plan(seed)
        if plan.tests:
            yield plan.table()


def smallest_tables():
    """One pin, two pins and three, of every kinds, without an arc and with one: every pair of kinds, and wrong numbers of arcs into the first pins."""
    for early, late in ((0, 0), (3, 9), (0, 1000000), (1000000, 1000000)):
        yield [1, 0, 0, 1000000, 0, early, late]
    for one in range(5):
        for other in range(5):
            for kinds, start in (([one, other], 0), ([one, other, 0], 0), ([0, one, other], 1)):
                pins = [number for kind in kinds for number in (kind, 0, 0)]
                yield [len(kinds), 0, 0, 1] + pins
                yield [len(kinds), 1, 0, 1] + pins + [start, start + 1, 2, 3]


def header_tables():
    """Tables of the right length with one number of the header at its limit or over it; else zeros, so one R stands only where there is one pin."""
    for pins, arcs, tests, period in ((256, 1024, 64, 1), (257, 0, 0, 1), (1, 1025, 0, 1), (1, 0, 65, 1), (0, 0, 0, 1), (1, 0, 0, 0), (1, 0, 0, 1000001),
                                      (1, 0, 0, 1000000), (1, 0, 0, 4294967295), (256, 0, 0, 1), (1, 1024, 0, 1), (1, 0, 64, 1)):
        table = [pins, arcs, tests, period] + [0] * (3 * pins + 4 * arcs + 4 * tests)
        yield table
        yield table[:-1]
        yield table + [0]


def crowded_tables():
    """Three and four arcs into a B and into a K, in a design that is right but for these."""
    for more in (1, 2, 3):
        for pin in (1, 2):
            plan = plans.Plan()
            for letter in "RBKD":
                plan.pin(letter)
            for start, end in [(0, 1), (1, 2), (2, 3)] + [(0, pin)] * more:
                plan.arc(start, end, 1, 2)
            plan.test(2, 3)
            yield plan.table()


def damaged_full_tables():
    """The largest table, and the same with faults at the last pin, arc and test and at the first test."""
    plan = plans.full_plan()
    table = plan.table()
    yield table
    pin, arc, test = 4 + 3 * 255, 4 + 3 * 256 + 4 * 1023, 4 + 3 * 256 + 4 * 1024 + 4 * 63
    for change in ({pin: 5}, {pin + 1: 1}, {pin + 2: 1}, {arc: 256}, {arc + 1: 256}, {arc: 255, arc + 1: 255}, {arc: 255, arc + 1: 254}, {arc: 0},
                   {arc + 2: 9, arc + 3: 8}, {arc + 3: 1000001}, {test: 256}, {test: 255}, {test + 1: 256}, {test + 1: 21}, {test + 2: 1000001},
                   {test + 3: 1000001}, {test - 4 * 63: 0}):
        yield plans.table_with(change, table)
    plan.arcs = [(min(start, 253), 254, *delays) if end == 255 else (start, end, *delays) for start, end, *delays in plan.arcs]
    yield plan.table()


def clock_tables():
    """Deep and flat clock trees, and the longest chains with everything at its limit."""
    for levels in (4, 16, 64, 128, 200):
        yield plans.deep_clock_plan(levels, [0, 1, levels // 2, levels - 1, levels, levels]).table()
        yield plans.deep_clock_plan(levels, list(range(0, levels + 1, 1 + levels // 20)), (0, 2)).table()
    for flops in (4, 16, 32, 100):
        yield plans.flat_clock_plan(flops).table()
    for flops_apart in (False, True):
        yield plans.longest_plan(flops_apart).table()


def grown_tables():
    """Random designs of all sizes up to the limits, with many arcs and tests."""
    sizes = ((20, 90, 9), (32, 128, 12), (40, 256, 33), (48, 512, 8), (64, 300, 40), (65, 513, 63), (90, 400, 64), (100, 700, 1), (120, 260, 20), (128, 600, 64),
             (129, 1023, 5), (150, 420, 30), (180, 800, 16), (200, 513, 32), (230, 1024, 7), (254, 900, 50), (255, 1023, 63), (255, 600, 2), (256, 1024, 64),
             (256, 700, 10))
    for place, size in enumerate(sizes * 2):
        yield plans.grown_plan(12000 + place, *size).table()


def asking_of(table, chance):
    """Mode, k, the length of the room and of the work area."""
    mode = chance.choice((0, 1, 0, 1, 0, 1, 2, 4294967295)) if chance.random() < 0.2 else chance.randrange(2)
    k = chance.choice((0, 17, 4294967295)) if chance.random() < 0.05 else chance.randrange(1, 17)
    pins = table[0] if table and table[0] <= 256 else 7
    room = max(0, min(4300, min(k, 16) * (pins + 5) + chance.choice((0, 0, 0, 0, 1, 9, 300, -1))))
    work = chance.choice((WORK, WORK, WORK, WORK, WORK, WORK + 8, WORK - 1, 0)) if chance.random() < 0.2 else WORK
    return mode, k, room, work


def sheet_askings():
    """Every mode and k of the sheet, with exact rooms and one short."""
    for mode in range(3):
        for k in range(18):
            for spare in (0, -1, 20):
                yield plans.SHEET_TABLE, mode, k, max(0, k * 12 + spare), WORK


def asked_in(table, mode, chance):
    """An asking that is accepted if its table is, the room exact, one longer, or longer."""
    k = chance.randrange(1, 17)
    pins = table[0] if table and table[0] <= 256 else 7
    return table, mode, k, k * (pins + 5) + chance.choice((0, 0, 1, 90)), WORK + chance.choice((0, 0, 0, 3))


def memory_askings():
    """The sheet with every length of room and of work area around the one that is due."""
    for mode in (0, 1):
        for k in (1, 3, 16):
            for room in (0, 1, k * 12 - 1, k * 12, k * 12 + 1, k * 12 + 50, 4500):
                for work in (0, 1, WORK - 1, WORK, WORK + 1, WORK + 8):
                    yield plans.SHEET_TABLE, mode, k, room, work


def counted_askings():
    """Every k in both modes against numbers of paths around it; the designs around the cap with one row and with sixteen."""
    for number in range(1, 18):
        table = plans.counting_plan(number).table()
        for k in range(1, 17):
            for mode in (0, 1):
                yield table, mode, k, k * (table[0] + 5) + k % 2, WORK
    for table in counted_tables():
        for mode in (0, 1):
            for k in (1, 16):
                yield table, mode, k, k * (table[0] + 5), WORK


def stored_askings():
    """Every stored asking, in a fixed order."""
    chance = random.Random(20261115)
    yield from sheet_askings()
    for tables in (damaged_sheets(chance), random_tables(chance), loose_tables(chance), counted_tables(), limit_tables()):
        for table in tables:
            yield (table, *asking_of(table, chance))
    for table in limit_tables():
        for mode in (0, 1):
            yield table, mode, 16, 16 * (table[0] + 5), WORK
    yield from memory_askings()
    yield from counted_askings()
    for tables in (many_tables(), smallest_tables(), header_tables(), crowded_tables(), damaged_full_tables(), grown_tables()):
        for place, table in enumerate(tables):
            yield asked_in(table, place % 2, chance)
    for table in clock_tables():
        for mode in (0, 1):
            yield asked_in(table, mode, chance)


def expected_line(table, mode, k, room, work):
    answer, room_after, work_after = toppaths.ask(table, mode, k, [ROOM_FILL] * room, [WORK_FILL] * work)
    return line_of(*answer, sum_signed(room_after), sum_of(work_after))


def make():
    records, printed = [], []
    for asking in stored_askings():
        table, rest = asking[0], asking[1:]
        records.append(numbers([len(table), *rest, *table]))
        printed.append(expected_line(*asking))
    return packed(records), b"".join(printed)


if __name__ == "__main__":
    keep("cases_asking", "askings", make)
