"""The ranked list: entering one record into a lent list.

The hand-made expectations follow document 01: the newcomer goes before the
first record, by place, that is greater; an equal record is not greater.
"""

import random

import toppaths

# What stands behind the count: must stay as it is.
JUNK = (-99, 9, 9)
OTHER = (77, 7, 7)

# what, list, count, record, new count, list after
ENTERINGS = [
    ("into an empty list", [JUNK, OTHER], 0, (5, 0, 0), 1, [(5, 0, 0), OTHER]),
    ("junk behind the count plays no part", [(1, 0, 0), JUNK, OTHER], 1, (5, 0, 0),
     2, [(1, 0, 0), (5, 0, 0), OTHER]),
    ("at the front", [(5, 0, 0), JUNK], 1, (4, 9, 9), 2, [(4, 9, 9), (5, 0, 0)]),
    ("in the middle", [(1, 0, 0), (9, 0, 0), JUNK, OTHER], 2, (5, 0, 0),
     3, [(1, 0, 0), (5, 0, 0), (9, 0, 0), OTHER]),
    ("slack is signed", [(0, 0, 0), JUNK], 1, (-1, 0, 0), 2, [(-1, 0, 0), (0, 0, 0)]),
    ("equal slack: by test", [(5, 2, 0), JUNK], 1, (5, 1, 9), 2, [(5, 1, 9), (5, 2, 0)]),
    ("equal slack and test: by serial", [(5, 2, 3), JUNK], 1, (5, 2, 2),
     2, [(5, 2, 2), (5, 2, 3)]),
    ("a greater test weighs more than a smaller serial", [(5, 1, 9), JUNK], 1, (5, 2, 0),
     2, [(5, 1, 9), (5, 2, 0)]),
    ("an equal record is passed", [(5, 0, 0), (5, 0, 0), (6, 0, 0), JUNK], 3, (5, 0, 0),
     4, [(5, 0, 0), (5, 0, 0), (5, 0, 0), (6, 0, 0)]),
    ("full: the last falls out", [(1, 0, 0), (9, 0, 0)], 2, (5, 0, 0),
     2, [(1, 0, 0), (5, 0, 0)]),
    ("full: the newcomer falls out", [(1, 0, 0), (9, 0, 0)], 2, (10, 0, 0),
     2, [(1, 0, 0), (9, 0, 0)]),
    ("full: an equal newcomer falls out", [(1, 0, 0), (9, 0, 0)], 2, (9, 0, 0),
     2, [(1, 0, 0), (9, 0, 0)]),
    ("length 1, full, smaller", [(5, 0, 0)], 1, (4, 0, 0), 1, [(4, 0, 0)]),
    ("length 1, full, greater", [(5, 0, 0)], 1, (6, 0, 0), 1, [(5, 0, 0)]),
    ("length 0", [], 0, (5, 0, 0), 0, []),
    ("unsorted: the first greater by place",
     [(5, 0, 0), (3, 0, 0), (9, 0, 0)], 3, (4, 0, 0), 3, [(4, 0, 0), (5, 0, 0), (3, 0, 0)]),
    ("unsorted: greater only at the front",
     [(9, 0, 0), (1, 0, 0), (1, 0, 0), (1, 0, 0), (1, 0, 0), JUNK], 5, (5, 0, 0),
     6, [(5, 0, 0), (9, 0, 0), (1, 0, 0), (1, 0, 0), (1, 0, 0), (1, 0, 0)]),
    ("falling order, full: the smallest is lost",
     [(9, 0, 0), (8, 0, 0), (7, 0, 0)], 3, (8, 0, 0), 3, [(8, 0, 0), (9, 0, 0), (8, 0, 0)]),
    ("unsorted, not full: none greater, at the end",
     [(3, 0, 0), (1, 0, 0), (2, 0, 0), JUNK, OTHER], 3, (3, 0, 0),
     4, [(3, 0, 0), (1, 0, 0), (2, 0, 0), (3, 0, 0), OTHER]),
]


def by_hand(tally):
    """Ranked list: enterings made by hand."""
    for what, records, count, record, new_count, after in ENTERINGS:
        lent = list(records)
        tally.same(what, toppaths.enter(lent, count, record), (("count", new_count), after))
        tally.same(f"{what}: the caller's own list", lent, records)


def refusal_16(tally):
    """Ranked list: refusal 16."""
    for length, count in ((0, 1), (1, 2), (3, 4), (3, 2 ** 64 - 1), (0, 2 ** 32)):
        records = [(place, 0, 0) for place in range(length)]
        tally.same(f"count {count} in a list of {length}",
                   toppaths.enter(records, count, (0, 0, 0)), (("refused", 16, 0), records))


def entered_as_told(records, count, record, answer, after):
    """Whether the document's sentences hold of one entering, without doing it again."""
    full = count == len(records)
    new_count = count if full else count + 1
    if answer != ("count", new_count) or len(after) != len(records):
        return False
    if after[new_count:] != records[new_count:]:
        return False
    for place in range(count + 1):
        passed = all(not old > record for old in records[:place])
        stops = place == count or records[place] > record
        if passed and stops:
            wanted = records[:place] + [record] + records[place:count]
            return after[:new_count] == wanted[:new_count]
    return False


def at_random(tally):
    """Ranked list: random unsorted lists with many equal records."""
    chance = random.Random(1)
    for turn in range(2000):
        length = chance.randint(0, 7)
        records = [(chance.randint(-2, 2), chance.randint(0, 1), chance.randint(0, 1))
                   for _ in range(length)]
        count = chance.randint(0, length)
        record = (chance.randint(-2, 2), chance.randint(0, 1), chance.randint(0, 1))
        answer, after = toppaths.enter(records, count, record)
        tally.same(f"random entering {turn}",
                   entered_as_told(records, count, record, answer, after), True)


def best_of_many(tally):
    """Ranked list: entering many one by one leaves the smallest in order."""
    chance = random.Random(2)
    for length in (1, 2, 5, 16):
        newcomers = [(chance.randint(-9, 9), chance.randint(0, 3), serial)
                     for serial in range(60)]
        records, count = [JUNK] * length, 0
        for record in newcomers:
            (_, count), records = toppaths.enter(records, count, record)
        tally.same(f"best {length} of 60", (count, records), (length, sorted(newcomers)[:length]))


GROUPS = (by_hand, refusal_16, at_random, best_of_many)
