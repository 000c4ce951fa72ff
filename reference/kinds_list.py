"""Of which kinds a stored list is: how long, in what order, where the newcomer goes and by what, and which wrong ways of entering it shows."""

from collections import Counter

import toppaths
from stored import lines_of, numbers_in, records_of

PLACES = 24


def record_of(seven):
    """A record from its seven stored numbers: the slack's sign, then slack, test and serial, each in two halves."""
    sign, *halves = seven
    slack, test, serial = (high * 2**32 + low for high, low in zip(halves[::2], halves[1::2], strict=True))
    return (-1 - slack if sign else slack), test, serial


def bits(record):
    """The record with its slack as it lies in memory, a number of 64 bits without a sign."""
    return record[0] % 2**64, record[1], record[2]


def with_signs(record):
    """The record with test and serial read as if they had a sign."""
    return record[0], *(number - 2**64 if number >= 2**63 else number for number in record[1:])


def low_halves(record):
    """The record with the lower 32 bits of its numbers, the slack's with their sign."""
    return (record[0] + 2**31) % 2**32 - 2**31, record[1] % 2**32, record[2] % 2**32


def put(records, count, place, newcomer):
    """The newcomer at a place among the first count; the last of a full list falls out."""
    front = records[:count]
    front[place:place] = [newcomer]
    front = front[:len(records)]
    return front + records[len(front):]


def before_first(records, count, newcomer, stops):
    return put(records, count, next((place for place in range(count) if stops(records[place])), count), newcomer)


def behind_last(records, count, newcomer):
    """Found from the end: behind the last record that is not greater."""
    return put(records, count, next((place + 1 for place in reversed(range(count)) if records[place] <= newcomer), 0), newcomer)


def all_moved(records, count, newcomer):
    """Every record behind the newcomer moves on, those behind the count too."""
    place = next((place for place in range(count) if records[place] > newcomer), count)
    return (records[:place] + [newcomer] + records[place:])[:len(records)]


def newcomer_kept(records, count, newcomer):
    """In a full list the last makes room before the newcomer is placed."""
    count = min(count, len(records) - 1) if records else 0
    return before_first(records, count, newcomer, lambda old: old > newcomer) if records else []


# Ways of entering that are not the document's: each must show in some stored list.
WRONG_WAYS = {
    "an equal record is greater": lambda r, n, c: before_first(r, n, c, lambda old: old >= c),
    "behind the last that is not greater": behind_last,
    "the first n are sorted": lambda r, n, c: (sorted(r[:n] + [c])[:len(r)] + r[n + 1:])[:len(r)],
    "the slack has no sign": lambda r, n, c: before_first(r, n, c, lambda old: bits(old) > bits(c)),
    "test and serial have a sign": lambda r, n, c: before_first(r, n, c, lambda old: with_signs(old) > with_signs(c)),
    "32 bits are compared": lambda r, n, c: before_first(r, n, c, lambda old: low_halves(old) > low_halves(c)),
    "the slack alone is compared": lambda r, n, c: before_first(r, n, c, lambda old: old[0] > c[0]),
    "the serial is not compared": lambda r, n, c: before_first(r, n, c, lambda old: old[:2] > c[:2]),
    "the test is not compared": lambda r, n, c: before_first(r, n, c, lambda old: old[::2] > c[::2]),
    "records behind the count move": all_moved,
    "the newcomer never falls out": newcomer_kept,
    "nothing is written": lambda r, n, c: list(r),
}


def place_kinds(records, count, newcomer, length):
    """Where an accepted newcomer goes, and by what."""
    greater = [place for place in range(count) if records[place] > newcomer]
    full = count == length
    place = greater[0] if greater else count
    if place == length:
        yield "list: full, the newcomer falls out"
    elif full:
        yield "list: full, the last falls out"
    else:
        yield "list: at the end" if place == count else "list: in front of all" if place == 0 else "list: between"
    if greater:
        old = records[place]
        yield f"list: the first greater is greater by {['slack', 'test', 'serial'][next(i for i in range(3) if old[i] != newcomer[i])]}"
    if newcomer in records[:place]:
        yield "list: an equal record is passed"
    if greater and len(greater) < count - place:
        yield "list: behind the first greater one that is not"
    if not full and count + 1 < length:
        yield "list: lent records behind the new count"
    if records[:count] == sorted(records[:count]):
        yield "list: sorted"
    elif count > 1:
        yield "list: not sorted"
    if count > 1 and len(set(records[:count])) == 1:
        yield "list: all records equal"


def list_kinds(length, count, newcomer, places):
    """The kinds of one stored list."""
    numbers = [number for record in [newcomer] + places[:length] for number in record]
    yield from (f"list: the number {number}" for number in (-2**63, 2**63 - 1, 2**64 - 1) if number in numbers)
    if length < PLACES:
        yield "list: places behind the lent ones"
    if count > length:
        above = count - length
        yield f"list: refused, count {'one above' if above == 1 else 'greatest' if count == 2**64 - 1 else 'far above' if above > 2**31 else 'above'}"
        return
    yield f"list: length {length}"
    yield f"list: count {count}"
    yield from place_kinds(places, count, newcomer, length)
    lent = places[:length]
    right = toppaths.enter(lent, count, newcomer)[1]
    for what, way in WRONG_WAYS.items():
        if way(list(lent), count, newcomer) != right:
            yield f"list: shows that {what}"


def count_lists():
    """How often each kind of list is stored."""
    counts = Counter()
    for record, line in zip(records_of("cases_list", "lists"), lines_of("cases_list"), strict=True):
        length, high, low, *rest = numbers_in(record)
        count, records = high * 2**32 + low, [record_of(rest[at:at + 7]) for at in range(0, len(rest), 7)]
        places = records[1:] + [(0, 0, 0)] * (PLACES + 1 - len(records))
        counts.update(["lists", f"list: answer {line[0]}", *list_kinds(length, count, records[0], places)])
    return counts
