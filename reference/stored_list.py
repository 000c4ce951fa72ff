"""The stored cases of the program `cases_list`: lists of candidate records in any order, how many places are lent, a count and a newcomer, and what the
second implementation says of each.

    python3 reference/stored_list.py           writes crates/cases_list/data/lists and crates/cases_list/stdout
    python3 reference/stored_list.py --check   says whether both stand as this program makes them; exit status 1 if not

A stored list has up to 24 records; the program fills the rest of its 24 places with records of zeros and lends the first `length` of them. For each it prints
the answer and a sum over all 24 places as they are afterwards, so that a place written behind the new count, on a refusal or behind the lent part shows. Then
it prints twice the answer and the sum for the first 16 places entered by value, once in each form by value.
"""

import random

import toppaths
from stored import keep, line_of, mix, numbers, packed

PLACES = 24
BY_VALUE = 16
SLACKS = (-2**63, -2**63 + 1, -2**32 - 1, -2**31, -257000000, -1, 0, 1, 2**31, 2**32, 2**63 - 2, 2**63 - 1)
NATURALS = (0, 1, 2**31, 2**32 - 1, 2**32, 2**63 - 1, 2**63, 2**64 - 2, 2**64 - 1)
COUNTS_ABOVE = (1, 2, 7, 2**32, 2**63, 2**64 - 1)


def few(chance, span):
    """A record whose numbers are few, so that many are equal."""
    return chance.randint(-span, span), chance.randint(0, span), chance.randint(0, span)


def extreme(chance):
    """A record of numbers at the ends of their ranges, and around them."""
    return chance.choice(SLACKS), chance.choice(NATURALS), chance.choice(NATURALS)


def every_length_and_count(chance):
    """Every length, every count up to it and the first above it; sorted up to the count, falling, and as they come."""
    for length in range(PLACES + 1):
        for count in range(length + 2):
            for order in range(3):
                records = [few(chance, chance.choice((1, 2, 5, 1000))) for _ in range(min(PLACES, length + 2))]
                if order:
                    records[:count] = sorted(records[:count], reverse=order == 2)
                yield records, length, count, few(chance, 3)


def every_place(chance):
    """Full and open sorted lists, and a newcomer for each place: equal to a record, and just above it by each of the three numbers."""
    for length, count in ((1, 1), (2, 2), (5, 4), (16, 16), (16, 15), (17, 17), (24, 24), (24, 9)):
        records = sorted((10 * chance.randint(-9, 9), 10 * chance.randint(0, 1), 10 * place) for place in range(PLACES))
        for slack, test, serial in records[:count]:
            for more in ((0, 0, 0), (0, 0, 1), (0, 1, 0), (1, 0, 0), (-1, 0, 0), (-1000, 0, 0), (1000, 0, 0)):
                yield records, length, count, (slack + more[0], test + more[1], serial + more[2])


def ties(chance):
    """Lists whose records are equal, or differ in one number only."""
    for turn in range(300):
        base = chance.choice(((0, 0, 0), (-5, 3, 7), (2**63 - 1, 2**64 - 1, 2**64 - 1), (-2**63, 0, 0)))
        differing = turn % 4  # the number that differs; with 3 none does
        records = []
        for _ in range(PLACES + 1):
            record = list(base)
            if differing < 3:
                record[differing] = chance.choice((base[differing], base[differing] + (1 if base[differing] < 2**62 else -1)))
            records.append(tuple(record))
        newcomer = records.pop()
        if turn % 3:
            records.sort()
        length = chance.choice((1, 3, 15, 16, 17, 24))
        yield records, length, length - turn % 2, newcomer


def extremes(chance):
    """Numbers at the ends of their ranges against each other, alone in a list and in long ones."""
    for old in SLACKS:
        for new in SLACKS:
            yield [(old, 1, 1), (0, 0, 0)], 2, 1, (new, 1, 1)
    for old in NATURALS:
        for new in NATURALS:
            yield [(-1, old, 5), (3, 3, 3)], 1, 1, (-1, new, 4)
            yield [(-1, 5, old), (3, 3, 3)], 2, 1, (-1, 5, new)
    for turn in range(300):
        records = [extreme(chance) for _ in range(PLACES)]
        if turn % 2:
            records.sort()
        length = chance.randrange(PLACES + 1)
        yield records, length, chance.choice((length, length, length // 2)), extreme(chance)


def counts_above(chance):
    """16: counts above the length, up to the greatest number; also a count that the list by value has and the lent one not."""
    for length in (0, 1, 2, 15, 16, 17, 23, 24):
        for more in COUNTS_ABOVE:
            records = [few(chance, 2) for _ in range(PLACES)]
            yield records, length, min(length + more, 2**64 - 1), few(chance, 2)


def any_lists(chance):
    """Lists of any length and count, with many equal records, often full, the newcomer often one that is there."""
    for turn in range(600):
        span = chance.choice((0, 1, 2, 5, 1000, 257000000))
        length = chance.randrange(PLACES + 1)
        records = [few(chance, span) for _ in range(PLACES)]
        if turn % 2:
            records.sort()
        count = chance.choice((length, length, chance.randrange(length + 1), chance.randrange(PLACES + 2)))
        yield records, length, count, chance.choice(records) if turn % 5 == 0 else few(chance, span)


def stored_lists():
    """Every stored list, in a fixed order."""
    chance = random.Random(20261115)
    for kind in (every_length_and_count, every_place, ties, extremes, counts_above, any_lists):
        yield from kind(chance)


def sum_records(records):
    total = 0
    for slack, test, serial in records:
        for value in (max(slack, 0), max(-slack, 0), test, serial):
            total = mix(total, value)
    return total


def halves(value):
    """A number of 64 bits as two of 32, the higher first."""
    return [value >> 32, value & 0xFFFFFFFF]


def numbers_of(record):
    """Seven numbers: the slack's sign, then slack, test and serial, each in halves. Below zero a slack is stored as one less than what it lacks."""
    slack, test, serial = record
    return [int(slack < 0), *halves(-1 - slack if slack < 0 else slack), *halves(test), *halves(serial)]


def stored_record(records, length, count, newcomer):
    return numbers([length, *halves(count)] + [n for record in [newcomer] + records for n in numbers_of(record)])


def entered(lent, kept, count, newcomer):
    """Answer and sum: entered into what is lent; what is kept behind it stays."""
    answer, after = toppaths.enter(lent, count, newcomer)
    return [*answer, sum_records(after + kept)]


def expected_line(records, length, count, newcomer):
    places = records + [(0, 0, 0)] * (PLACES - len(records))
    by_value = entered(places[:BY_VALUE], [], count, newcomer)
    return line_of(*entered(places[:length], places[length:], count, newcomer), *by_value, *by_value)


def make():
    lists = list(stored_lists())
    return packed([stored_record(*stored) for stored in lists]), b"".join(expected_line(*stored) for stored in lists)


if __name__ == "__main__":
    keep("cases_list", "lists", make)
