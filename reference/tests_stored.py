"""What the stored cases of the test programs hold: every kind that is listed here, at least so often.

    python3 reference/tests_stored.py      prints how often each kind is there

What the kinds are is told in `kinds_asking.py` and `kinds_list.py`.
"""

import sys
from itertools import combinations

from kinds_asking import KINDS, TOTALS, count_askings
from kinds_list import PLACES, WRONG_WAYS, count_lists

REFUSED_PAIRS = [f"10 {one} to {other}" for one in KINDS for other in KINDS
                 if one + other not in ("RB", "RK", "BB", "BK", "KD", "ID", "DD", "RR")]  # R to R has two R, which is 8

ASKINGS_WANTED = [
    (5000, ["askings"]),
    (3000, ["accepted"]),
    (1000, ["parallel arcs", "equal slacks among the rows", "start and test on one flip-flop", "two tests share the clock pin", "two tests share the data pin",
            "two tests share both pins", "a tie that the arcs decide", "rows are k", "fewer rows than k", "R is not pin 0", "a row from an I"]),
    (500, ["equal slacks at the last row and the next path", "the order before credit is another", "a tie that the test number decides", "equal arcs",
           "period 1", "period 1000000", *(f"room exact in mode {mode}" for mode in (0, 1))]),
    (100, ["8 or more rows of one slack", "a tie of paths with different credits", "two tests are the same", "T is 0", "T is 1", "T is 2", "T is 3 to 8",
           "P is 3 to 8", "P is 9 to 16", "P is 17 to 32", "A is 2 to 8", "A is 9 to 32", "A is 33 to 128", "k paths", "fewer than k paths", "more than k paths",
           "work area longer", "flat clock tree: 4 or more K, all on R", "deep clock tree: a K at depth 4 or more", "all delays 0",
           *(f"room {length} in mode {mode}" for length in ("longer", "one longer") for mode in (0, 1))]),
    (50, [f"k {k} in mode {mode}" for k in range(1, 17) for mode in (0, 1)]),
    (20, ["P is 33 to 64", "P is 65 to 128", "P is 129 to 255", "P is 256", "A is 129 to 512", "A is 513 to 1023", "T is 9 to 32", "T is 64",
          "K at four or more depths",
          "deep clock tree: a K at depth 16 or more", *(f"refused {number} in mode {mode}" for number in range(6, 16) for mode in (0, 1))]),
    (4, ["P is 1", "P is 2", "A is 0", "A is 1", "A is 1024", "T is 33 to 63", "flat clock tree: 32 or more K, all on R", "deep clock tree: a K at depth 64 or more",
         "deep clock tree: a K at depth 200 or more", "a delay at its limit", "a slack below 0", "a slack over 200,000,000 from 0", "a row of 100 or more arcs",
         "over the cap by all tests together", *(f"{total} paths" for total in TOTALS)]),
    (1, [*(f"6 {what}" for what in ("no header", "P is 0", "P is over its limit", "A is over its limit", "T is over its limit", "the period is 0",
                                    "the period is over its limit", "the table is shorter", "the table is longer")),
         "7 kind over 4", *(f"7 {kind} {what}" for kind in "RI" for what in ("early above late", "late over the limit")),
         *(f"7 {kind} has {what}" for kind in "BKD" for what in ("an early time", "a late time")), "8 no R", "8 two R", "8 more than two R",
         "9 from is no pin", "9 to is no pin", "9 from is to", "9 from is above to", *REFUSED_PAIRS, "11 early above late", "11 late over the limit",
         *(f"12 {kind} with {into}" for kind in "BK" for into in ("0", "2", "more than 2")), "12 D with 0",
         "13 clock is no pin", *(f"13 clock is {kind}" for kind in "RBID"), "13 data is no pin", *(f"13 data is {kind}" for kind in "RBKI"),
         "13 setup over the limit", "13 hold over the limit", "14 mode 2", "14 mode far over 1", "14 k 0", "14 k 17", "14 k far over 16",
         "15 room one shorter", "15 room shorter", "15 no room", "15 work area one shorter", "15 work area shorter", "15 no work area",
         *(f"{number} {where}" for number in (7, 9, 10, 11, 12, 13) for where in ("at place 0", "between", "at the last place")),
         "7 at place 255", "9 at place 1023", "10 at place 1023", "11 at place 1023", "12 at place 255", "13 at place 63",
         *(f"both {one} and {other}" for one, other in combinations(range(7, 16), 2))]),
]

LISTS_WANTED = [
    (3000, ["lists"]),
    (500, ["list: sorted", "list: not sorted", "list: places behind the lent ones", "list: behind the first greater one that is not"]),
    (200, ["list: answer refused", "list: at the end", "list: between", "list: in front of all", "list: full, the newcomer falls out",
           "list: full, the last falls out", "list: an equal record is passed", "list: lent records behind the new count",
           *(f"list: the number {number}" for number in (-2**63, 2**63 - 1, 2**64 - 1))]),
    (100, [f"list: the first greater is greater by {what}" for what in ("slack", "test", "serial")]),
    (10, ["list: all records equal", "list: refused, count one above", "list: refused, count above", "list: refused, count far above",
          *(f"list: length {length}" for length in range(1, PLACES + 1)), *(f"list: count {count}" for count in range(PLACES))]),
    (5, ["list: length 0", f"list: count {PLACES}", "list: refused, count greatest", *(f"list: shows that {what}" for what in WRONG_WAYS)]),
]


def kinds_are_there(tally, counts, wanted):
    """Each kind at least so often."""
    for least, kinds in wanted:
        for kind in kinds:
            tally.same(f"stored at least {least} times: {kind}", counts[kind] if counts[kind] < least else "enough", "enough")


def stored_askings(tally):
    """Stored askings: every kind is there."""
    kinds_are_there(tally, count_askings(), ASKINGS_WANTED)


def stored_lists(tally):
    """Stored lists: every kind is there."""
    kinds_are_there(tally, count_lists(), LISTS_WANTED)


GROUPS = (stored_askings, stored_lists)


def main():
    for kind, number in sorted((count_askings() + count_lists()).items()):
        print(f"{number:6}  {kind}")


if __name__ == "__main__":
    sys.dont_write_bytecode = True
    main()
