"""Of which kinds a stored asking is: why it is refused, or what its design, its rows and its memory are like.

The kinds are told from the stored table, mode, k and lengths and from the expected answer. Only slacks and numbers of paths are worked out by the second
implementation.
"""

from collections import Counter
from itertools import combinations

import toppaths
from stored import lines_of, numbers_in, records_of

KINDS = "RBKID"
LIMIT = 1_000_000
TOTALS = (10**9 - 1, 10**9, 10**9 + 1, 2**32 - 1, 2**32, 2**32 + 1, 2**64 - 1, 2**64, 2**64 + 1)


# ------------------------------------------------------------------ why an asking is refused

def cause_6(table):
    if len(table) < 4:
        yield "6 no header"
        return
    pins, arcs, tests, period = table[:4]
    yield from (f"6 {what}" for what, holds in (
        ("P is 0", pins == 0), ("P is over its limit", pins > 256), ("A is over its limit", arcs > 1024), ("T is over its limit", tests > 64),
        ("the period is 0", period == 0), ("the period is over its limit", period > LIMIT),
        ("the table is shorter", len(table) < 4 + 3 * pins + 4 * arcs + 4 * tests),
        ("the table is longer", len(table) > 4 + 3 * pins + 4 * arcs + 4 * tests)) if holds)


def cause_7(table, pin):
    kind, early, late = table[4 + 3 * pin:7 + 3 * pin]
    if kind > 4:
        yield "7 kind over 4"
    elif KINDS[kind] in "RI":
        if early > late:
            yield f"7 {KINDS[kind]} early above late"
        if late > LIMIT:
            yield f"7 {KINDS[kind]} late over the limit"
    else:
        if early:
            yield f"7 {KINDS[kind]} has an early time"
        if late:
            yield f"7 {KINDS[kind]} has a late time"


def kinds_of(table):
    return [table[4 + 3 * pin] for pin in range(table[0])]


def arc_of(table, arc):
    at = 4 + 3 * table[0] + 4 * arc
    return table[at:at + 4]


def arcs_of(table):
    return [arc_of(table, arc) for arc in range(table[1])]


def tests_of(table):
    at = 4 + 3 * table[0] + 4 * table[1]
    return [table[at + 4 * test:at + 4 * test + 4] for test in range(table[2])]


def cause_8(table):
    roots = kinds_of(table).count(0)
    yield "8 no R" if roots == 0 else "8 two R" if roots == 2 else "8 more than two R"


def cause_9(table, arc):
    start, end = arc_of(table, arc)[:2]
    if start >= table[0]:
        yield "9 from is no pin"
    if end >= table[0]:
        yield "9 to is no pin"
    if start < table[0] and end < table[0]:
        yield "9 from is to" if start == end else "9 from is above to"


def cause_10(table, arc):
    start, end = arc_of(table, arc)[:2]
    kinds = kinds_of(table)
    yield f"10 {KINDS[kinds[start]]} to {KINDS[kinds[end]]}"


def cause_11(table, arc):
    early, late = arc_of(table, arc)[2:]
    if early > late:
        yield "11 early above late"
    if late > LIMIT:
        yield "11 late over the limit"


def cause_12(table, pin):
    into = sum(end == pin for _, end, _, _ in arcs_of(table))
    yield f"12 {KINDS[kinds_of(table)[pin]]} with {into if into < 3 else 'more than 2'}"


def cause_13(table, test):
    clock, data, setup, hold = tests_of(table)[test]
    kinds = kinds_of(table)
    for what, pin, wanted in (("clock", clock, 2), ("data", data, 4)):
        if pin >= table[0]:
            yield f"13 {what} is no pin"
        elif kinds[pin] != wanted:
            yield f"13 {what} is {KINDS[kinds[pin]]}"
    if setup > LIMIT:
        yield "13 setup over the limit"
    if hold > LIMIT:
        yield "13 hold over the limit"


def cause_14(mode, k):
    if mode > 1:
        yield "14 mode 2" if mode == 2 else "14 mode far over 1"
    if not 1 <= k <= 16:
        yield f"14 k {k}" if k in (0, 17) else "14 k far over 16"


def cause_15(table, k, room, work):
    due = k * (table[0] + 5)
    if room < due:
        yield "15 room one shorter" if room == due - 1 else "15 no room" if room == 0 else "15 room shorter"
    if work < toppaths.WORK:
        yield "15 work area one shorter" if work == toppaths.WORK - 1 else "15 no work area" if work == 0 else "15 work area shorter"


def causes(asking, number, place):
    """All conditions of this number that hold at this place."""
    table, mode, k, room, work = asking
    if number in (6, 8):
        return list({6: cause_6, 8: cause_8}[number](table))
    if number == 14:
        return list(cause_14(mode, k))
    if number == 15:
        return list(cause_15(table, k, room, work))
    return list({7: cause_7, 9: cause_9, 10: cause_10, 11: cause_11, 12: cause_12, 13: cause_13}[number](table, place))


def places_of(table, number):
    """How many places a fault of this number may have."""
    return {7: table[0], 9: table[1], 10: table[1], 11: table[1], 12: table[0], 13: table[2]}[number]


def faults(asking):
    """The numbers from 7 on whose condition holds anywhere in a table that has its length and header right."""
    table, mode, k, room, work = asking
    kinds = kinds_of(table)
    found = {number for number, holds in (
        (7, any(any(True for _ in cause_7(table, pin)) for pin in range(table[0]))),
        (8, kinds.count(0) != 1),
        (13, any(any(True for _ in cause_13(table, test)) if max(kinds) <= 4 else False for test in range(table[2]))),
        (14, any(True for _ in cause_14(mode, k))),
        (15, 1 <= k <= 16 and any(True for _ in cause_15(table, k, room, work)))) if holds}
    into = Counter()
    for start, end, early, late in arcs_of(table):
        into[end] += 1
        if early > late or late > LIMIT:
            found.add(11)
        if not start < end < table[0]:
            found.add(9)
        elif kinds[start] <= 4 and kinds[end] <= 4 and not toppaths.MAY_DRIVE[kinds[start]][kinds[end]]:
            found.add(10)
    if any(kind in (1, 2) and into[pin] != 1 or kind == 4 and not into[pin] for pin, kind in enumerate(kinds)):
        found.add(12)
    return found


def refused_kinds(asking, number, place):
    """The kinds of a refused asking. A condition counts only where no other of its number holds at that place."""
    found = causes(asking, number, place)
    if len(found) == 1:
        yield found[0]
    if number in (7, 9, 10, 11, 12, 13):
        last = places_of(asking[0], number) - 1
        yield f"{number} at place 0" if place == 0 else f"{number} at the last place" if place == last else f"{number} between"
        if last == {7: 255, 12: 255, 13: 63}.get(number, 1023) and place == last:
            yield f"{number} at place {last}"
    if number > 6:
        for one, other in combinations(sorted(faults(asking)), 2):
            yield f"both {one} and {other}"
    yield f"refused {number} in mode {asking[1]}" if asking[1] < 2 else f"refused {number} with a bad mode"


# ------------------------------------------------------------------ what an accepted asking has

def size_kinds(table):
    pins, arcs, tests, period = table[:4]
    for what, size, steps in (("P", pins, (1, 2, 8, 16, 32, 64, 128, 255, 256)), ("A", arcs, (0, 1, 8, 32, 128, 512, 1023, 1024)),
                              ("T", tests, (0, 1, 2, 8, 32, 63, 64))):
        at = next(step for step in range(len(steps)) if size <= steps[step])
        low = steps[at - 1] + 1 if at else steps[0]
        yield f"{what} is {steps[at]}" if low == steps[at] else f"{what} is {low} to {steps[at]}"
    if period in (1, LIMIT):
        yield f"period {period}"
    delays = [value for arc in arcs_of(table) for value in arc[2:]]
    if delays and max(delays) == LIMIT:
        yield "a delay at its limit"
    if delays and max(delays) == 0:
        yield "all delays 0"


def clock_kinds(table):
    kinds, parent = kinds_of(table), {}
    for start, end, _, _ in arcs_of(table):
        if kinds[end] in (1, 2):
            parent[end] = start
    depth = {}
    for pin in range(table[0]):
        if kinds[pin] in (0, 1, 2):
            depth[pin] = depth[parent[pin]] + 1 if kinds[pin] else 0
    flops = [depth[pin] for pin in depth if kinds[pin] == 2]
    if kinds[0] != 0:
        yield "R is not pin 0"
    if len(flops) >= 4 and max(flops) == 1:
        yield "flat clock tree: 4 or more K, all on R"
    if len(flops) >= 32 and max(flops) == 1:
        yield "flat clock tree: 32 or more K, all on R"
    for deep in (4, 16, 64, 200):
        if flops and max(flops) >= deep:
            yield f"deep clock tree: a K at depth {deep} or more"
    if len(set(flops)) >= 4:
        yield "K at four or more depths"


def sharing_kinds(table):
    tests = [tuple(test) for test in tests_of(table)]
    if len({test[0] for test in tests}) < len(tests):
        yield "two tests share the clock pin"
    if len({test[1] for test in tests}) < len(tests):
        yield "two tests share the data pin"
    if len({test[:2] for test in tests}) < len(tests):
        yield "two tests share both pins"
    if len(set(tests)) < len(tests):
        yield "two tests are the same"
    ends = [tuple(arc[:2]) for arc in arcs_of(table)]
    if len(set(ends)) < len(ends):
        yield "parallel arcs"
    if len(set(map(tuple, arcs_of(table)))) < len(ends):
        yield "equal arcs"


def slack_kinds(slacks, rows):
    """Of the slacks of the first k + 1 paths, of which so many are rows."""
    given = slacks[:rows]
    if len(set(given)) < len(given):
        yield "equal slacks among the rows"
    if Counter(given).most_common(1)[0][1] >= 8:
        yield "8 or more rows of one slack"
    if len(slacks) > rows and slacks[rows] == slacks[rows - 1]:
        yield "equal slacks at the last row and the next path"
    if min(given) < 0:
        yield "a slack below 0"
    if max(abs(slack) for slack in given) > 200_000_000:
        yield "a slack over 200,000,000 from 0"


def tie_kinds(timing, tied):
    """Of the pairs of paths that stand behind each other with one slack."""
    if any(one.test != other.test for one, other in tied):
        yield "a tie that the test number decides"
    if any(one.test == other.test for one, other in tied):
        yield "a tie that the arcs decide"
    if any(toppaths.credit_of_path(timing, one) != toppaths.credit_of_path(timing, other) for one, other in tied):
        yield "a tie of paths with different credits"


def row_kinds(timing, mode, paths):
    """Of the paths that are rows."""
    tests, pins = timing.design.tests, timing.design.pins
    if any(path.start == tests[path.test].clock for path in paths):
        yield "start and test on one flip-flop"
    if any(pins[path.start].kind == toppaths.I for path in paths):
        yield "a row from an I"
    if max(len(path.backwards) for path in paths) >= 100:
        yield "a row of 100 or more arcs"
    before = [toppaths.slack_before_credit(timing, mode, path) for path in paths]
    if before != sorted(before):
        yield "the order before credit is another"


def total_kinds(timing, k):
    """Of the number of paths."""
    total, by_pin = toppaths.number_of_paths(timing), toppaths.numbers_of_paths(timing)
    yield f"{total} paths" if total in TOTALS else "fewer than k paths" if total < k else "k paths" if total == k else "more than k paths"
    if total > toppaths.TOTAL >= max(by_pin[test.data] for test in timing.design.tests):
        yield "over the cap by all tests together"


def path_kinds(table, mode, k, rows):
    """What the paths of an accepted design are like."""
    timing = toppaths.Timing(toppaths.design_of(table))
    yield from total_kinds(timing, k)
    if rows:
        paths = toppaths.worst_paths(timing, mode, k + 1)
        slacks = [toppaths.slack_of(timing, mode, path) for path in paths]
        tied = [(one, other) for one, other, first, second in zip(paths[:rows], paths[1:], slacks, slacks[1:]) if first == second]
        for kinds in (slack_kinds(slacks, rows), tie_kinds(timing, tied), row_kinds(timing, mode, paths[:rows])):
            yield from kinds


def accepted_kinds(asking, rows):
    table, mode, k, room, work = asking
    yield f"k {k} in mode {mode}"
    yield "rows are k" if rows == k else "no rows" if rows == 0 else "fewer rows than k"
    due = k * (table[0] + 5)
    yield f"room {'exact' if room == due else 'one longer' if room == due + 1 else 'longer'} in mode {mode}"
    yield "work area exact" if work == toppaths.WORK else "work area longer"
    for kinds in (size_kinds(table), clock_kinds(table), sharing_kinds(table), path_kinds(table, mode, k, rows)):
        yield from kinds


def count_askings():
    """How often each kind of asking is stored."""
    counts = Counter()
    for record, line in zip(records_of("cases_asking", "askings"), lines_of("cases_asking"), strict=True):
        length, mode, k, room, work, *table = numbers_in(record)
        assert length == len(table)
        asking = (table, mode, k, room, work)
        if line[0] == "refused":
            kinds = [f"refused {line[1]}", *refused_kinds(asking, int(line[1]), int(line[2]))]
        else:
            kinds = ["accepted", *accepted_kinds(asking, int(line[1]))]
        counts.update(["askings", *kinds])
    return counts
