"""The paths: order, credit, totals; enumeration against merging against forward walks.

Small expectations are worked out by hand from document 01.  The random designs
are compared with a second way of finding the paths that stands in this file:
walks FORWARD from each start, clock arrivals from R downwards, and the lowest
common ancestor as the common one with the fewest pins below it.
"""

import itertools

import toppaths
from plans import Plan, counting_plan, ladder_plan, random_plan, small_clock

try:
    import networkx
except ImportError:
    networkx = None


# ------------------------------------------------- walking forward, for comparison

def clock_below(plan):
    """Per pin the set of pins that hang below it over clock arcs, itself included."""
    below = {pin: {pin} for pin in range(len(plan.pins))}
    for start, end, _, _ in sorted(plan.arcs, reverse=True):
        if plan.pins[end][0] in "BK":
            below[start] |= below[end]
    return below


def arrivals_downwards(plan):
    """The (early, late) arrival of each pin that has one, from R downwards."""
    arrivals = {pin: (early, late) for pin, (letter, early, late) in enumerate(plan.pins)
                if letter in "RI"}
    for start, end, early, late in sorted(plan.arcs):
        if plan.pins[end][0] in "BK":
            arrivals[end] = (arrivals[start][0] + early, arrivals[start][1] + late)
    return arrivals


def walks_from(plan, pin, so_far=()):
    """Every walk over arcs from the pin, as (last pin, arcs)."""
    for number, (start, end, _, _) in enumerate(plan.arcs):
        if start == pin:
            yield end, so_far + (number,)
            yield from walks_from(plan, end, so_far + (number,))


def forward_paths(plan):
    """Every path as (test, start, arcs), found by walking forward."""
    for start, (letter, _, _) in enumerate(plan.pins):
        if letter in "KI":
            for last, arcs in walks_from(plan, start):
                for test, (_, data, _, _) in enumerate(plan.tests):
                    if data == last:
                        yield test, start, arcs


def forward_credit(plan, arrivals, below, start, clock):
    """The credit of start and test's clock: none from an I, else at the common pin."""
    if plan.pins[start][0] == "I":
        return 0
    common = [pin for pin in arrivals if {start, clock} <= below[pin]]
    lowest = min(common, key=lambda pin: len(below[pin]))
    return arrivals[lowest][1] - arrivals[lowest][0]


def rows_from_paths(plan, mode, paths):
    """The rows of these paths in order, from the definitions and a plain sort."""
    arrivals, below = arrivals_downwards(plan), clock_below(plan)
    rows = []
    for test, start, arcs in paths:
        clock, _, setup, hold = plan.tests[test]
        credit = forward_credit(plan, arrivals, below, start, clock)
        if mode == 0:
            before = (arrivals[clock][0] + plan.period - setup - arrivals[start][1]
                      - sum(plan.arcs[arc][3] for arc in arcs))
        else:
            before = (arrivals[start][0] + sum(plan.arcs[arc][2] for arc in arcs)
                      - arrivals[clock][1] - hold)
        row = [before + credit, credit, test, start, len(arcs), *arcs]
        rows.append((before + credit, test, arcs[::-1],
                     row + [0] * (len(plan.pins) + 5 - len(row))))
    return [row for _, _, _, row in sorted(rows)]


def asked_rows(plan, mode, k):
    """The rows that the program under test writes, and its answer."""
    width = len(plan.pins) + 5
    answer, room, _ = toppaths.ask(plan.table(), mode, k, [7] * (k * width))
    return answer, [room[width * rank:width * (rank + 1)] for rank in range(answer[1])]


def timing_of(plan):
    return toppaths.Timing(toppaths.design_of(plan.table()))


# ----------------------------------------------------------------- the comparisons

def forward_against_program(tally):
    """Random designs: the program against forward walks, and the text against the table."""
    for seed in range(700):
        plan = random_plan(seed)
        for mode, word in ((0, "setup"), (1, "hold")):
            rows = rows_from_paths(plan, mode, forward_paths(plan))
            for k in (1, 3, 16):
                tally.same(f"design {seed} mode {mode} k {k}", asked_rows(plan, mode, k),
                           (("rows", min(k, len(rows)), len(rows)), rows[:k]))
            table = plan.table()
            tally.same(f"design {seed} read",
                       toppaths.read(plan.text(word, 16), [0] * len(table)),
                       (("read", len(table), mode, 16), table))


def enumeration_against_merging(tally):
    """Random designs: all paths listed against merging."""
    largest = 0
    for seed in range(1000):
        plan = random_plan(seed, pins=None if seed < 600 else 20 + seed % 20)
        timing = timing_of(plan)
        number = toppaths.number_of_paths(timing)
        if number > 4_000:
            continue
        largest = max(largest, number)
        for mode in (0, 1):
            listed = toppaths.worst_by_enumeration(timing, mode, 16)
            for k in (1, 2, 5, 16):
                tally.same(f"design {seed} mode {mode} k {k}",
                           toppaths.worst_by_merging(timing, mode, k), listed[:k])
    tally.note(f"the largest of these designs has {largest} paths")


def merging_on_ties(tally):
    """Merging where very many paths tie: the first in order of arcs backwards."""
    for number in (1, 2, 3, 5, 16, 17, 1000, 20_000, 20_001, 10 ** 9, 2 ** 64 + 5, 2 ** 200 + 1):
        plan = counting_plan(number)
        data = plan.tests[0][1]
        first = list(itertools.islice(backwards_in_order(plan, data), 16))
        timing = timing_of(plan)
        paths = [toppaths.Path(0, 2, arcs) for arcs in first]
        for mode in (0, 1):
            for k in (1, 2, 16):
                tally.same(f"{number} equal paths, mode {mode}, k {k}",
                           toppaths.worst_by_merging(timing, mode, k), paths[:k])
                tally.same(f"{number} equal paths, mode {mode}, k {k}, as asked",
                           toppaths.worst_paths(timing, mode, k), paths[:k])


def backwards_in_order(plan, pin):
    """The arc lists back from the pin, one after the other, smaller arc number first."""
    if plan.pins[pin][0] in "KI":
        yield ()
    else:
        for number, (start, end, _, _) in enumerate(plan.arcs):
            if end == pin:
                for rest in backwards_in_order(plan, start):
                    yield (number,) + rest


def against_networkx(tally):
    """Random designs: the program against networkx."""
    if networkx is None:
        tally.note("networkx is not installed; this comparison is left out")
        return
    for seed in range(1000, 1120):
        plan = random_plan(seed)
        paths = list(paths_of_networkx(plan))
        for mode in (0, 1):
            answer, rows = asked_rows(plan, mode, 16)
            wanted = rows_from_networkx(plan, mode, paths)
            tally.same(f"design {seed} mode {mode}", (answer[2], rows), (len(paths), wanted[:16]))


def paths_of_networkx(plan):
    """Every path as (test, start, arcs), found by networkx."""
    graph = networkx.MultiDiGraph()
    graph.add_nodes_from(range(len(plan.pins)))
    for number, (start, end, _, _) in enumerate(plan.arcs):
        graph.add_edge(start, end, key=number)
    for test, (_, data, _, _) in enumerate(plan.tests):
        for start, (letter, _, _) in enumerate(plan.pins):
            if letter in "KI":
                for edges in networkx.all_simple_edge_paths(graph, start, data):
                    yield test, start, tuple(key for _, _, key in edges)


def rows_from_networkx(plan, mode, paths):
    """The rows of these paths, with networkx's arrivals and lowest common ancestors."""
    tree = networkx.DiGraph()
    root = next(pin for pin, (letter, _, _) in enumerate(plan.pins) if letter == "R")
    tree.add_node(root)
    for start, end, early, late in plan.arcs:
        if plan.pins[end][0] in "BK":
            tree.add_edge(start, end, early=early, late=late)
    early, late = (networkx.single_source_dijkstra_path_length(tree, root, weight=name)
                   for name in ("early", "late"))
    rows = []
    for test, start, arcs in paths:
        clock, _, setup, hold = plan.tests[test]
        credit, (_, start_early, start_late) = 0, plan.pins[start]
        if plan.pins[start][0] == "K":
            common = networkx.lowest_common_ancestor(tree, start, clock)
            credit = late[common] + plan.pins[root][2] - early[common] - plan.pins[root][1]
            start_early = plan.pins[root][1] + early[start]
            start_late = plan.pins[root][2] + late[start]
        required = (plan.pins[root][1] + early[clock] + plan.period - setup if mode == 0
                    else plan.pins[root][2] + late[clock] + hold)
        arrival = (start_late + sum(plan.arcs[arc][3] for arc in arcs) if mode == 0
                   else start_early + sum(plan.arcs[arc][2] for arc in arcs))
        slack = (required - arrival if mode == 0 else arrival - required) + credit
        rows.append((slack, test, arcs[::-1], credit, start))
    return [[slack, credit, test, start, len(back), *back[::-1]]
            + [0] * (len(plan.pins) - len(back))
            for slack, test, back, credit, start in sorted(rows)]


# ---------------------------------------------------------------- totals and order

def totals(tally):
    """Totals around 10^9, 2^32, 2^64 and above."""
    most = 10 ** 9
    for number in (1, 2, 15, 16, 17, 19_999, 20_000, 20_001, 123_456_789, most - 1, most, most + 1,
                   2 ** 31, 2 ** 32 - 1, 2 ** 32, 2 ** 32 + 5, 3 * 2 ** 32 + 7, 2 ** 63, 2 ** 64 - 1,
                   2 ** 64, 2 ** 64 + 5, 2 ** 64 + most - 1, 2 ** 96, 2 ** 128 + 3, 2 ** 252):
        plan = counting_plan(number)
        tally.same(f"{number} paths, counted", toppaths.number_of_paths(timing_of(plan)), number)
        tally.same(f"{number} paths, total", asked_rows(plan, 0, 1)[0],
                   ("rows", 1, min(number, most)))
    for number, copies, total in ((most // 2, 2, most), (most // 2 - 1, 2, most - 2),
                                  (most // 2 + 1, 2, most), (2 ** 26, 64, most),
                                  (2 ** 58, 64, most), (3, 64, 192), (15_625_000, 64, most),
                                  (15_624_999, 64, most - 64)):
        plan = counting_plan(number)
        plan.tests *= copies
        tally.same(f"{copies} tests of {number} paths", asked_rows(plan, 1, 1)[0],
                   ("rows", 1, total))
    plan = counting_plan(most - 1)
    plan.test(1, 3)
    tally.same("10^9 - 1 and 1 more", asked_rows(plan, 0, 1)[0], ("rows", 1, most))
    plan.test(1, 3)
    tally.same("10^9 - 1 and 2 more", asked_rows(plan, 0, 1)[0], ("rows", 1, most))


def a_long_ladder(tally):
    """A ladder of 2^n paths whose first sixteen rows are known by hand."""
    for levels in (15, 40, 253):
        plan = ladder_plan(levels)
        slow = [2 + 2 * level for level in range(levels)]
        quick = [1 + 2 * level for level in range(levels)]
        setup, hold = [slow], [quick]
        # One step better: at one level the other arc.  In setup the path that
        # changes nearest the data pin has the smaller arc number there, in hold
        # the greater one.
        for level in range(levels):
            setup.insert(1, slow[:level] + [quick[level]] + slow[level + 1:])
            hold.append(quick[:level] + [slow[level]] + quick[level + 1:])
        for mode, lists, slacks in ((0, setup, [1000 - levels] + [1001 - levels] * 15),
                                    (1, hold, [0] + [1] * 15)):
            answer, rows = asked_rows(plan, mode, 16)
            zeros = [0] * (len(plan.pins) - levels)
            tally.same(f"ladder {levels} mode {mode}", rows,
                       [[slack, 0, 0, 2, levels, *arcs, *zeros]
                        for slack, arcs in zip(slacks, lists)])
            tally.same(f"ladder {levels} mode {mode} total", answer,
                       ("rows", 16, min(2 ** levels, 10 ** 9)))


def order_by_hand(tally):
    """Order: slack, then test, then arcs read backwards."""
    plan = small_clock()
    middle, data = plan.pin("D"), plan.pin("D")
    plan.arc(middle, data, 1)
    plan.arc(2, middle, 2)
    plan.arc(2, data, 3)
    plan.arc(middle, data, 1)
    plan.arc(2, middle, 2)
    plan.test(1, data)
    plan.test(1, data)
    # Arcs 1 and 4 come out of arcs 2 and 5; arc 3 goes straight.  All slacks are 997.
    in_order = [(2, 1), (5, 1), (3,), (2, 4), (5, 4)]
    wanted = [[997, 0, test, 2, len(arcs), *arcs] + [0] * (5 - len(arcs))
              for test in (0, 1) for arcs in in_order]
    tally.same("ties", asked_rows(plan, 0, 16), (("rows", 10, 10), wanted))
    tally.same("ties cut at 7", asked_rows(plan, 0, 7), (("rows", 7, 10), wanted[:7]))
    plan.tests[1] = (1, data, 1, 1)
    wanted = wanted[5:] + wanted[:5]
    for row in wanted[:5]:
        row[0] = 996
    tally.same("a worse second test goes first", asked_rows(plan, 0, 16)[1], wanted)


# --------------------------------------------------------------- credit and bounds

def two_flip_flops(root, shared):
    """R; with `shared` a B below it; two K below that; each K drives the one D."""
    plan = Plan(period=100)
    top = plan.pin("R", *root)
    if shared:
        buffer = plan.pin("B")
        plan.arc(top, buffer, *shared)
        top = buffer
    one, other = plan.pin("K"), plan.pin("K")
    data = plan.pin("D")
    plan.arc(top, one, 1, 4)
    plan.arc(top, other, 2, 9)
    plan.arc(one, data, 10, 20)
    plan.arc(other, data, 10, 20)
    plan.test(one, data)
    return plan


def credit_by_hand(tally):
    """Credit: at R, at a buffer, at the shared flip-flop, none from an I."""
    # Setup, from the test's own K: early + 100 - late - 20 + (late - early) = 80.
    # From the other K, tree split at R (2, 7): 3 + 100 - 16 - 20 + 5 = 72.
    plan = two_flip_flops((2, 7), None)
    tally.same("split at R", asked_rows(plan, 0, 2)[1],
               [[72, 5, 0, 2, 1, 3, 0, 0, 0], [80, 8, 0, 1, 1, 2, 0, 0, 0]])
    # With a buffer of 30 to 50 between: 33 + 100 - 66 - 20 + 25 = 72 again.
    plan = two_flip_flops((2, 7), (30, 50))
    tally.same("split at a buffer", asked_rows(plan, 0, 2)[1],
               [[72, 25, 0, 3, 1, 4, 0, 0, 0, 0], [80, 28, 0, 2, 1, 3, 0, 0, 0, 0]])
    # Hold: own K: early + 10 - late + (late - early) = 10; other: 34 + 10 - 61 + 25 = 8.
    tally.same("split at a buffer, hold", asked_rows(plan, 1, 2)[1],
               [[8, 25, 0, 3, 1, 4, 0, 0, 0, 0], [10, 28, 0, 2, 1, 3, 0, 0, 0, 0]])
    # R without a difference of its own: no credit where the tree splits at R.
    plan = two_flip_flops((5, 5), None)
    tally.same("R's early is its late", [row[1] for row in asked_rows(plan, 0, 2)[1]], [0, 3])
    # An I gets none, however wide R is: 0 + 0 + 1000 - 0 - 0 - 3 = 997.
    plan = small_clock((0, 500))
    data = plan.pin("D")
    plan.arc(2, data, 3)
    plan.test(1, data)
    tally.same("from an I", asked_rows(plan, 0, 1)[1], [[997, 0, 0, 2, 1, 1, 0, 0, 0]])
    tally.same("from an I, hold", asked_rows(plan, 1, 1)[1], [[-497, 0, 0, 2, 1, 1, 0, 0, 0]])


def chain(plan, letters, early, late):
    """Pins in a row, each driving the next, from pin 0 on."""
    before = 0
    for letter in letters:
        pin = plan.pin(letter)
        plan.arc(before, pin, early, late)
        before = pin
    return before


def slack_bounds(tally):
    """Slacks of the longest designs, worked out by hand, within 257,000,000."""
    most = 1_000_000
    # Launch over R, 100 B, K and 153 D: 254 arcs; the test's clock hangs on R.
    plan = Plan(period=1, pins=[("R", 0, most)])
    data = chain(plan, "B" * 100 + "K" + "D" * 153, 0, most)
    plan.arc(0, plan.pin("K"), 0, 0)
    plan.test(255, data, most, most)
    # setup: 0 + 1 - 1M - (1M + 254M) + 1M
    tally.same("least setup slack of a launch chain", asked_rows(plan, 0, 1)[1][0][:2],
               [-254_999_999, most])
    # hold: 0 + 0 - 1M - 1M + 1M
    tally.same("hold of the same", asked_rows(plan, 1, 1)[1][0][:2], [-most, most])
    # Capture over R, 252 B and K: 253 arcs; start at an I.
    plan = Plan(period=most, pins=[("R", most, most)])
    clock = chain(plan, "B" * 252 + "K", most, most)
    start, data = plan.pin("I"), plan.pin("D")
    plan.arc(start, data)
    plan.test(clock, data, 0, most)
    tally.same("greatest setup slack", asked_rows(plan, 0, 1)[1][0][:2], [255_000_000, 0])
    tally.same("least hold slack", asked_rows(plan, 1, 1)[1][0][:2], [-255_000_000, 0])
    # An I at 1M and 253 D behind it: 253 arcs.
    plan = small_clock()
    plan.pins[2] = ("I", most, most)
    before = 2
    for _ in range(253):
        data = plan.pin("D")
        plan.arc(before, data, most)
        before = data
    plan.test(1, before)
    tally.same("greatest hold slack", asked_rows(plan, 1, 1)[1][0][:2], [254_000_000, 0])


GROUPS = (order_by_hand, credit_by_hand, slack_bounds, totals, a_long_ladder, merging_on_ties,
          forward_against_program, enumeration_against_merging, against_networkx)
