"""Holds what the fuzz driver recorded to the second implementation in Python: every reading, line, asking and entering of the record.

    python3 -B fuzz/compare.py FILE

The last line is 'N passed, 0 failed'; exit status 1 if any failed.
"""

import os
import sys

sys.path.insert(0, os.path.join(os.path.dirname(os.path.dirname(os.path.abspath(__file__))), "reference"))

import toppaths  # noqa: E402


def numbers(words):
    """The words as numbers."""
    return [int(word) for word in words]


def reading_agrees(told, text):
    """A reading: room, refusal, place, length, mode, k as the library told them."""
    room, refusal, place, length, mode, k = told
    answer, _ = toppaths.read(text, [0] * room)
    wanted = (answer[1], answer[2], 0, 0, 0) if answer[0] == "refused" else (0, 0) + answer[1:]
    return (refusal, place, length, mode, k) == wanted


def asking_agrees(told, table, rows):
    """An asking: mode, k, room, work, refusal, place, rows and total as the library told them, and the numbers of the rows."""
    mode, k, room, work, refusal, place, given, total = told
    answer, after, _ = toppaths.ask(table, mode, k, [0] * room, [0] * work)
    if answer[0] == "refused":
        return (refusal, place, given, total, rows) == (answer[1], answer[2], 0, 0, [])
    return (refusal, place, given, total) == (0, 0) + answer[1:] and rows == after[:len(rows)] and len(rows) == given * (table[0] + 5)


def records(words):
    """Numbers by threes: slack, test, serial."""
    return list(zip(words[0::3], words[1::3], words[2::3]))


def entering_agrees(told, before, after):
    """An entering: count, refusal, place, new count and the record as they were told, and the list before and after."""
    count, refusal, place, entered, *record = told
    answer, wanted = toppaths.enter(before, count, tuple(record))
    said = (answer[1], answer[2], 0) if answer[0] == "refused" else (0, 0, answer[1])
    return (refusal, place, entered) == said and after == wanted


def results(record):
    """Whether each entry of the record agrees."""
    told, text, table, before = [], b"", [], []
    for line in record:
        name, *words = line.split()
        if name in ("read", "ask", "enter"):
            told = numbers(words)
        elif name == "text":
            text = bytes.fromhex("".join(words))
            yield reading_agrees(told, text), line
        elif name == "line":
            n, start, size = numbers(words)
            offset, own = toppaths.line(text, n)
            yield (start, size) == (offset, len(own)), line
        elif name == "table":
            table = numbers(words[1:])
        elif name == "list":
            before = records(numbers(words))
        elif name == "entered":
            yield entering_agrees(told, before, records(numbers(words))), f"enter {told} into {before}"
        elif name == "rows":
            yield asking_agrees(told, table, numbers(words[1:])), f"ask {told} of {table}"


def main():
    """Compare every entry."""
    passed, failed = 0, 0
    with open(sys.argv[1], encoding="ascii") as record:
        for agrees, what in results(record):
            passed += agrees
            failed += not agrees
            if not agrees and failed < 20:
                print(f"differs: {what.strip()[:300]}")
    print(f"{passed} passed, {failed} failed")
    sys.exit(1 if failed else 0)


if __name__ == "__main__":
    main()
