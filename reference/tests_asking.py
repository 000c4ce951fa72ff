"""An asking: refusals 6 to 15, their order, and the lent memory.

The expectations are written by hand from document 01's table of refusals.  The
changed tables are the bench sheet's: places 0 to 3 header, pin p from 4 + 3p,
arc a from 25 + 4a, test t from 53 + 4t, 61 numbers in all.
"""

import random

import toppaths
from plans import SHEET_TABLE, Plan, random_plan, small_clock, table_with

ROOM = list(range(-50, 400))
WORK_AREA = list(range(1, toppaths.WORK + 11))
ABOVE = (1_000_001, 2 ** 31, 2 ** 32 - 1)


def pin(p):
    return 4 + 3 * p


def arc(a):
    return 25 + 4 * a


def test(t):
    return 53 + 4 * t


def refuses(tally, what, table, number, place, mode=0, k=3):
    """Check and asking are refused so, and all lent memory is as it was."""
    if number <= 13:
        tally.same(f"{what}: check", toppaths.check(table), (number, place))
    room, work, given = list(ROOM), list(WORK_AREA), list(table)
    tally.same(what, toppaths.ask(given, mode, k, room, work),
               (("refused", number, place), ROOM, WORK_AREA))
    tally.same(f"{what}: the caller's own memory", (given, room, work),
               (list(table), ROOM, WORK_AREA))


def refuses_changed(tally, changes, number, place):
    """The sheet's table with these places changed is refused so, in both modes."""
    refuses(tally, f"sheet with {changes}", table_with(changes), number, place)
    refuses(tally, f"sheet with {changes}, hold", table_with(changes), number, place, mode=1)


def refusal_6(tally):
    """Refusal 6: table length wrong, header outside limits."""
    for length in (0, 1, 3, 4, 5, 60):
        refuses(tally, f"the first {length} numbers", SHEET_TABLE[:length], 6, 0)
    refuses(tally, "one number more", SHEET_TABLE + [0], 6, 0)
    refuses(tally, "all zero", [0] * 61, 6, 0)
    for place, value in ((0, 0), (0, 8), (0, 6), (0, 2 ** 32 - 1), (1, 8), (1, 6), (1, 2 ** 32 - 1),
                         (1, 2 ** 30 + 7), (2, 3), (2, 1), (2, 2 ** 30 + 2), (3, 0),
                         (3, 1_000_001), (3, 2 ** 32 - 1)):
        refuses_changed(tally, {place: value}, 6, 0)
    header = {"P": [257, 0, 0, 1], "A": [1, 1025, 0, 1], "T": [1, 0, 65, 1], "no P": [0, 0, 0, 1]}
    for what, (pins, arcs, tests, period) in header.items():
        table = [pins, arcs, tests, period] + [0] * (3 * pins + 4 * arcs + 4 * tests)
        refuses(tally, f"{what} outside its limit, length right", table, 6, 0)


def refusal_7(tally):
    """Refusal 7: kind over 4, bad range, times on B, K or D."""
    for changes, place in (
            ({pin(0): 5}, 0), ({pin(6): 2 ** 32 - 1}, 6), ({pin(3): 5}, 3),
            ({pin(0) + 1: 11}, 0), ({pin(0) + 2: 1_000_001}, 0),
            ({pin(4) + 1: 1_000_001, pin(4) + 2: 1_000_001}, 4), ({pin(4) + 1: 21}, 4),
            ({pin(1) + 2: 1}, 1), ({pin(2) + 1: 1, pin(2) + 2: 1}, 2), ({pin(3) + 1: 1}, 3),
            ({pin(5) + 2: 10}, 5), ({pin(6) + 1: 1}, 6), ({pin(6) + 2: 2 ** 32 - 1}, 6),
            ({pin(6): 9, pin(2): 9}, 2), ({pin(5) + 2: 1, pin(1): 7}, 1),
            ({pin(4): 4}, 4)):
        refuses_changed(tally, changes, 7, place)


def refusal_8(tally):
    """Refusal 8: not exactly one R."""
    refuses_changed(tally, {pin(0): 3}, 8, 0)
    refuses_changed(tally, {pin(4): 0}, 8, 0)
    refuses_changed(tally, {pin(6): 0}, 8, 0)
    refuses_changed(tally, {pin(0): 1, pin(0) + 2: 0}, 8, 0)
    for letters in ("D", "I", "B", "RR", "KDI"):
        refuses(tally, f"pins {letters}", Plan(pins=[(x, 0, 0) for x in letters]).table(), 8, 0)


def refusals_9_to_11(tally):
    """Refusals 9, 10, 11: an arc's ends, its pair of kinds, its range."""
    for changes, place in (
            ({arc(0): 7}, 0), ({arc(6) + 1: 7}, 6), ({arc(3): 5}, 3), ({arc(3) + 1: 2}, 3),
            ({arc(3): 3, arc(3) + 1: 3}, 3), ({arc(4) + 1: 2}, 4), ({arc(5) + 1: 2 ** 32 - 1}, 5),
            ({arc(5): 2 ** 32 - 1}, 5), ({arc(0): 2 ** 31, arc(0) + 1: 2 ** 31 + 1}, 0)):
        refuses_changed(tally, changes, 9, place)
    for changes, place in (
            ({arc(3): 0}, 3), ({arc(4): 1}, 4), ({arc(1): 0, arc(1) + 1: 4}, 1),
            ({arc(4) + 1: 4}, 4), ({arc(0) + 1: 5}, 0), ({arc(2): 2}, 2),
            ({arc(6): 0, arc(6) + 1: 6}, 6)):
        refuses_changed(tally, changes, 10, place)
    for above in ABOVE:
        refuses_changed(tally, {arc(2) + 3: above}, 11, 2)
        refuses_changed(tally, {arc(6) + 2: above, arc(6) + 3: above}, 11, 6)
    refuses_changed(tally, {arc(3) + 2: 131}, 11, 3)
    refuses_changed(tally, {arc(0) + 3: 39}, 11, 0)


def every_pair_of_kinds(tally):
    """Refusal 10: each of the 25 pairs of kinds; seven are allowed."""
    allowed = {"RB", "RK", "BB", "BK", "KD", "ID", "DD"}
    numbers = set()
    for one in "RBKID":
        for other in "RBKID":
            letters = one + other if "R" in one + other else "R" + one + other
            plan = Plan(pins=[(letter, 0, 0) for letter in letters])
            plan.arc(len(letters) - 2, len(letters) - 1)
            answer = toppaths.check(plan.table())
            if one + other == "RR":
                tally.same("R to R", answer, (8, 0))
            elif one + other in allowed:
                numbers.add(one + other)
                tally.same(f"{one} to {other} is not 10", answer is None or answer[0] == 12, True)
            else:
                tally.same(f"{one} to {other}", answer, (10, 0))
    tally.same("seven pairs", len(numbers), 7)


def arc_by_arc(tally):
    """Order: arc by arc 9, 10, 11."""
    nine, ten, eleven = {arc(1) + 1: 1}, {arc(1): 0, arc(1) + 1: 6}, {arc(1) + 3: 1}
    nine_late, ten_late = {arc(3): 7}, {arc(3): 0}
    refuses_changed(tally, {arc(0) + 3: 0, **nine}, 11, 0)
    refuses_changed(tally, {**eleven, **nine_late}, 11, 1)
    refuses_changed(tally, {**eleven, **ten_late}, 11, 1)
    refuses_changed(tally, {**ten, **nine_late}, 10, 1)
    refuses_changed(tally, {**nine, arc(1) + 3: 1}, 9, 1)
    refuses_changed(tally, {**ten, arc(1) + 3: 1}, 10, 1)
    refuses_changed(tally, {arc(0): 2 ** 32 - 1, arc(0) + 3: 0}, 9, 0)


def refusal_12(tally):
    """Refusal 12: wrong number of arcs into a pin."""
    refuses_changed(tally, {arc(1) + 1: 3}, 12, 2)
    refuses_changed(tally, {arc(2): 0, arc(2) + 1: 1}, 12, 1)
    refuses_changed(tally, {arc(3) + 1: 6, arc(4) + 1: 6}, 12, 5)
    for letters, arcs, place in (
            ("RB", [], 1), ("RK", [], 1), ("RD", [], 1), ("RID", [], 2), ("RIDK", [(1, 2)], 3),
            ("RK", [(0, 1), (0, 1)], 1), ("RBK", [(0, 1), (0, 2), (1, 2)], 2),
            ("RBB", [(1, 2)], 1), ("RBD", [], 1), ("RIDBD", [(1, 2), (2, 4)], 3)):
        plan = Plan(pins=[(letter, 0, 0) for letter in letters])
        for start, end in arcs:
            plan.arc(start, end)
        refuses(tally, f"pins {letters} arcs {arcs}", plan.table(), 12, place)


def refusal_13(tally):
    """Refusal 13: clock no K, data no D, setup or hold over limit."""
    for changes, place in (
            ({test(0): 1}, 0), ({test(0): 0}, 0), ({test(1): 4}, 1), ({test(1): 5}, 1),
            ({test(0): 7}, 0), ({test(1): 2 ** 32 - 1}, 1),
            ({test(0) + 1: 3}, 0), ({test(1) + 1: 4}, 1), ({test(1) + 1: 7}, 1),
            ({test(0) + 1: 2 ** 32 - 1}, 0), ({test(0): 6, test(0) + 1: 3}, 0),
            ({test(1) + 2: 1_000_001}, 1), ({test(1) + 3: 1_000_001}, 1),
            ({test(0) + 2: 2 ** 32 - 1}, 0), ({test(0) + 3: 2 ** 31}, 0),
            ({test(1): 0, test(0) + 3: 1_000_001}, 0)):
        refuses_changed(tally, changes, 13, place)


def refusal_14(tally):
    """Refusal 14: mode over 1, k outside 1 to 16."""
    for mode, k in ((2, 1), (2, 0), (2 ** 32 - 1, 16), (0, 0), (1, 0), (0, 17), (1, 17),
                    (0, 2 ** 32 - 1), (0, 2 ** 64 - 1), (1, 9_999_999)):
        refuses(tally, f"mode {mode} k {k}", SHEET_TABLE, 14, 0, mode, k)
        tally.same(f"mode {mode} k {k}, no room", toppaths.ask(SHEET_TABLE, mode, k, [], []),
                   (("refused", 14, 0), [], []))
    refuses(tally, "13 before 14", table_with({test(0): 1}), 13, 0, 2, 0)


def refusal_15(tally):
    """Refusal 15: room below k x (P + 5), work area short."""
    work = toppaths.WORK
    for k, needed in ((1, 12), (3, 36), (16, 192)):
        for length in (0, needed - 1):
            tally.same(f"k {k} room {length}",
                       toppaths.ask(SHEET_TABLE, 0, k, [9] * length, WORK_AREA),
                       (("refused", 15, 0), [9] * length, WORK_AREA))
        for length in (0, 1, work - 1):
            tally.same(f"k {k} work area {length}",
                       toppaths.ask(SHEET_TABLE, 1, k, ROOM, [9] * length),
                       (("refused", 15, 0), ROOM, [9] * length))
    tally.same("both short", toppaths.ask(SHEET_TABLE, 0, 3, [9] * 35, [9] * (work - 1)),
               (("refused", 15, 0), [9] * 35, [9] * (work - 1)))
    no_tests = Plan(pins=[("R", 0, 0)]).table()
    tally.same("T = 0, room short", toppaths.ask(no_tests, 0, 2, [9] * 11),
               (("refused", 15, 0), [9] * 11, None))
    tally.same("T = 0, room enough", toppaths.ask(no_tests, 0, 2, [9] * 12),
               (("rows", 0, 0), [9] * 12, None))


# One fault for each refusal, by its step in the order of an asking.
FAULTS = [
    (6, 0, {3: 0}), (7, 4, {pin(4) + 1: 21}), (7, 6, {pin(6) + 2: 1}), (8, 0, {pin(0): 3}),
    (9, 0, {arc(0) + 1: 9}), (10, 4, {arc(4): 1}), (11, 5, {arc(5) + 3: 29}), (9, 6, {arc(6): 6}),
    (12, 2, {arc(2) + 1: 2}), (13, 0, {test(0) + 1: 2}), (13, 1, {test(1) + 2: 1_000_001}),
]


def order_of_faults(tally):
    """Order: of any two or three faults the earlier in the document's order decides."""
    for first in range(len(FAULTS)):
        number, place, changes = FAULTS[first]
        refuses(tally, f"{number} at {place} and 14", table_with(changes), number, place, 2, 0)
        tally.same(f"{number} at {place} and 15",
                   toppaths.ask(table_with(changes), 0, 3, [], []),
                   (("refused", number, place), [], []))
        for second in range(first + 1, len(FAULTS)):
            both = {**changes, **FAULTS[second][2]}
            refuses_changed(tally, both, number, place)
            for third in range(second + 1, len(FAULTS)):
                refuses_changed(tally, {**both, **FAULTS[third][2]}, number, place)


# The sheet's first three setup rows, from the printed sheet: P + 5 = 12 numbers each.
THREE_ROWS = [30, 30, 0, 2, 2, 3, 6, 0, 0, 0, 0, 0,
              35, 40, 0, 3, 2, 4, 6, 0, 0, 0, 0, 0,
              40, 30, 1, 3, 1, 4, 0, 0, 0, 0, 0, 0]


def lent_memory(tally):
    """Lent memory: rows at the front, places after the last row stay, work area zero."""
    for length in (36, 37, 200):
        tally.same(f"room {length}", toppaths.ask(SHEET_TABLE, 0, 3, ROOM[:length]),
                   (("rows", 3, 5), THREE_ROWS + ROOM[36:length], None))
    tally.same("k = 1", toppaths.ask(SHEET_TABLE, 0, 1, ROOM),
               (("rows", 1, 5), THREE_ROWS[:12] + ROOM[12:], None))
    answer, room, _ = toppaths.ask(SHEET_TABLE, 0, 16, ROOM)
    tally.same("k = 16 gives five rows, then the room stays",
               (answer, room[:36], room[60:]), (("rows", 5, 5), THREE_ROWS, ROOM[60:]))
    work = toppaths.WORK
    tally.same("the work area's length is at most 8,192", 0 <= work <= 8_192, True)
    for length in (work, work + 1, work + 10):
        lent = WORK_AREA[:length]
        tally.same(f"work area {length}", toppaths.ask(SHEET_TABLE, 0, 1, ROOM, lent)[2],
                   [0] * work + WORK_AREA[work:length])
        tally.same("the caller's own work area", lent, WORK_AREA[:length])


def accepted_at_the_limits(tally):
    """Accepted: every value at its limit, I and D before R, tests that share pins."""
    for changes in ({3: 1}, {3: 1_000_000}, {pin(0) + 2: 1_000_000}, {pin(4) + 1: 0},
                    {pin(4) + 1: 1_000_000, pin(4) + 2: 1_000_000}, {arc(3) + 3: 1_000_000},
                    {arc(3) + 2: 0}, {arc(3) + 2: 130}, {test(0) + 2: 1_000_000},
                    {test(0) + 3: 1_000_000}, {test(1): 3, test(1) + 1: 6}):
        tally.same(f"sheet with {changes}", toppaths.check(table_with(changes)), None)
    before = Plan(pins=[("I", 1, 2), ("D", 0, 0), ("R", 0, 3), ("K", 0, 0)])
    before.arc(0, 1, 5, 6)
    before.arc(2, 3, 7, 9)
    before.test(3, 1, 10, 20)
    # setup: 0 + 7 + 1000 - 10 - 2 - 6 = 989; hold: 1 + 5 - (3 + 9) - 20 = -26
    tally.same("I and D before R, setup", toppaths.printed(before.text("setup", 5)),
               b"path\t1\t989\t0\t0\t0\t0\nend\t1\t1\n")
    tally.same("I and D before R, hold", toppaths.printed(before.text("hold", 5)),
               b"path\t1\t-26\t0\t0\t0\t0\nend\t1\t1\n")
    full = small_clock()
    for _ in range(253):
        full.arc(2, full.pin("D"), 1)
    for _ in range(1024 - 254):
        full.arc(2, 255, 1)
    for _ in range(64):
        full.test(1, 255)
    answer = toppaths.ask(full.table(), 0, 16, [0] * (16 * 261))[0]
    tally.same("256 pins, 1,024 arcs, 64 tests", answer, ("rows", 16, 64 * 771))


def any_table(tally):
    """Any table: an answer of the right form, memory kept on a refusal."""
    chance = random.Random(5)
    for turn in range(1500):
        table = random_plan(turn).table() if turn % 2 else list(SHEET_TABLE)
        for _ in range(chance.randint(0, 3)):
            table[chance.randrange(len(table))] = chance.choice(
                (0, 1, 2, 3, 4, 5, 6, 7, 100, 1_000_000, 1_000_001, 2 ** 32 - 1))
        mode, k, room = chance.randint(0, 2), chance.randint(0, 17), ROOM[:chance.randint(0, 450)]
        answer, after, work = toppaths.ask(table, mode, k, room, WORK_AREA)
        if answer[0] == "refused":
            held = 6 <= answer[1] <= 15 and after == room and work == WORK_AREA
        else:
            written = answer[1] * (table[0] + 5)
            held = (answer[1] == min(k, answer[2]) and after[written:] == room[written:]
                    and len(after) == len(room) and not any(work[:toppaths.WORK]))
        tally.same(f"changed table {turn} {table}", held, True)


GROUPS = (refusal_6, refusal_7, refusal_8, refusals_9_to_11, every_pair_of_kinds, arc_by_arc,
          refusal_12, refusal_13, refusal_14, refusal_15, order_of_faults, lent_memory,
          accepted_at_the_limits, any_table)
