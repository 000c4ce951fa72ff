"""The bench sheet of document 01: what is printed, P1 to P9, and the Run sentences.

Every expected number below stands in the document or, where marked, follows
from it by the sums written beside it.
"""

import toppaths
from plans import SHEET, SHEET_PRINTED, SHEET_TABLE, Plan, sheet_with, small_clock

# All five setup rows: slack, credit, test, start, arcs.  P3 gives the slacks;
# before credit: 0, -5, 10, 15, 165, with credits 30, 40, 30, 35 and none.
SETUP_ROWS = [
    (30, 30, 0, 2, (3, 6)),
    (35, 40, 0, 3, (4, 6)),
    (40, 30, 1, 3, (4,)),
    (50, 35, 1, 2, (3,)),
    (165, 0, 0, 4, (5,)),
]

# All five hold rows.  P4 gives the slacks; before credit: -77, 48, 55, 48, 55.
HOLD_ROWS = [
    (-77, 0, 0, 4, (5,)),
    (78, 30, 0, 2, (3, 6)),
    (85, 30, 1, 3, (4,)),
    (88, 40, 0, 3, (4, 6)),
    (90, 35, 1, 2, (3,)),
]


def asked(text, k=16):
    """The rows of a text's design as (slack, credit, test, start, arcs), and the answer."""
    read, table = toppaths.read(text, [0] * 6000)
    table = table[:read[1]]
    answer, room, _ = toppaths.ask(table, read[2], k, [0] * (k * (table[0] + 5)))
    width = table[0] + 5
    rows = [room[width * i:width * (i + 1)] for i in range(answer[1])]
    return [(*row[:4], tuple(row[5:5 + row[4]])) for row in rows], answer


def with_ask(line):
    return sheet_with({18: line})


def slack_of_arcs(rows, arcs):
    return next(row[0] for row in rows if row[4] == arcs)


def the_sheet(tally):
    """The bench sheet and what it prints."""
    tally.same("sheet", toppaths.printed(SHEET), SHEET_PRINTED)
    tally.same("sheet read", toppaths.read(SHEET, [0] * 61),
               (("read", 61, 0, 3), SHEET_TABLE))
    tally.same("sheet, setup, all", asked(with_ask(b"ask\tsetup\t16"))[0], SETUP_ROWS)
    tally.same("sheet, hold, all", asked(with_ask(b"ask\thold\t16"))[0], HOLD_ROWS)
    tally.same("sheet, hold, printed", toppaths.printed(with_ask(b"ask\thold\t2")),
               b"path\t1\t-77\t0\t0\t4\t5\npath\t2\t78\t30\t0\t2\t3\t6\nend\t2\t5\n")
    without_ask = SHEET[:-len(b"ask\tsetup\t3\n")]
    tally.same("without ask it is setup and 1", toppaths.printed(without_ask),
               b"path\t1\t30\t30\t0\t2\t3\t6\nend\t1\t5\n")


def p1_to_p5(tally):
    """P1 to P5: credits, slacks before and after credit, total."""
    timing = toppaths.Timing(toppaths.design_of(SHEET_TABLE))
    tally.same("P1", [toppaths.credit_of_pin(timing, pin) for pin in range(4)],
               [10, 30, 35, 40])
    rows, answer = asked(SHEET)
    for arcs, before, after in (((4, 6), -5, 35), ((3, 6), 0, 30)):
        row = next(row for row in rows if row[4] == arcs)
        tally.same(f"P2 {arcs} after", row[0], after)
        tally.same(f"P2 {arcs} before", row[0] - row[1], before)
    tally.same("P3", [row[0] for row in rows], [30, 35, 40, 50, 165])
    hold = asked(with_ask(b"ask\thold\t16"))[0]
    tally.same("P4", [row[0] for row in hold], [-77, 78, 85, 88, 90])
    tally.same("P5", answer, ("rows", 5, 5))


def p6_to_p9(tally):
    """P6 to P9: widened arcs, table length, room."""
    wider = asked(sheet_with({9: b"arc\t0\t1\t30\t80"}))[0]
    tally.same("P6 arcs 3, 6", slack_of_arcs(wider, (3, 6)), 30)
    tally.same("P6 arc 5", slack_of_arcs(wider, (5,)), 155)
    wider = asked(sheet_with({10: b"arc\t1\t2\t10\t20"}))[0]
    tally.same("P7 arcs 3, 6", slack_of_arcs(wider, (3, 6)), 25)
    tally.same("P7 arc 3 alone", slack_of_arcs(wider, (3,)), 50)
    tally.same("P8", toppaths.read(SHEET, [0] * 61)[0][1], 61)
    tally.same("P9, 36", toppaths.ask(SHEET_TABLE, 0, 3, [7] * 36)[0], ("rows", 3, 5))
    tally.same("P9, 35", toppaths.ask(SHEET_TABLE, 0, 3, [7] * 35),
               (("refused", 15, 0), [7] * 35, None))


def run_sentences(tally):
    """The sentences after 'Run:'."""
    tally.same("k = 16 gives five rows",
               toppaths.printed(with_ask(b"ask\tsetup\t16")).split(b"\n")[-2], b"end\t5\t5")
    for k in (b"17", b"0"):
        tally.same(f"k = {k}", toppaths.printed(with_ask(b"ask\tsetup\t" + k)),
                   b"refused\t14\t0\n")
    tally.same("empty text", toppaths.printed(b""), b"refused\t2\t1\n")
    equal = small_clock()
    data = equal.pin("D")
    equal.arc(2, data, 5)
    equal.arc(2, data, 5)
    equal.test(1, data)
    tally.same("two equal arcs from I to D", toppaths.printed(equal.text("setup", 2)),
               b"path\t1\t995\t0\t0\t2\t1\npath\t2\t995\t0\t0\t2\t2\nend\t2\t2\n")
    no_tests = Plan(equal.period, equal.pins, equal.arcs, [])
    tally.same("T = 0", toppaths.printed(no_tests.text("setup", 3)), b"end\t0\t0\n")
    only_root = Plan(pins=[("R", 3, 4)])
    tally.same("P = 1 with R", toppaths.printed(only_root.text("hold", 16)), b"end\t0\t0\n")
    tally.same("arc 3 to 3", toppaths.printed(sheet_with({12: b"arc\t3\t3\t1\t1"})),
               b"refused\t9\t3\n")


GROUPS = (the_sheet, p1_to_p5, p6_to_p9, run_sentences)
