"""The stored cases of the program `cases_reading`: texts, whole and damaged, and what the second implementation says of each.

    python3 reference/stored_reading.py           writes crates/cases_reading/data/texts and crates/cases_reading/stdout
    python3 reference/stored_reading.py --check   says whether both stand as this program makes them; exit status 1 if not

A stored text comes with the length of the room lent for its table and with line numbers to give back. For each the program prints the answer of the
reading, a sum over the whole room as it is afterwards, and a sum over the lines given back, so a place written on a refusal shows.
"""

import random

import plans
import toppaths
from stored import keep, line_of, mix, numbers, packed, sum_of
from tests_cases import members_of

FILL = 4000000007  # what stands in the room before


def single_byte_faults(text, chance):
    """A byte flipped, dropped and added at each place of the text."""
    for place in range(len(text)):
        flipped = text[place] ^ (1 << chance.randrange(8))
        yield text[:place] + bytes([flipped]) + text[place + 1:]
        yield text[:place] + text[place + 1:]
    for place in range(len(text) + 1):
        added = chance.choice(b"\t\n 0159-RBKIDx\r\x00\xff")
        yield text[:place] + bytes([added]) + text[place:]


def field_faults(text, chance):
    """On each line a field missing, doubled, emptied, replaced."""
    lines = text.split(b"\n")[:-1]
    odd = [b"", b"00", b"007", b"12345678", b"9999999", b"1000001", b"+1", b"-1", b"1.5", b" 1", b"1 ", b"1e3", b"x", b"0x1", b"R", b"r", b"RR", b"both", b"setup", b"hold"]
    for n, content in enumerate(lines):
        fields = content.split(b"\t")
        for i in range(len(fields)):
            for new in (fields[:i] + fields[i + 1:], fields[:i] + [fields[i]] + fields[i:], fields[:i] + [chance.choice(odd)] + fields[i + 1:], fields[:i] + [b""] + fields[i + 1:]):
                yield b"".join(l + b"\n" for l in lines[:n] + [b"\t".join(new)] + lines[n + 1:])
        yield b"".join(l + b"\n" for l in lines[:n] + lines[n + 1:])
        yield b"".join(l + b"\n" for l in lines[:n] + [content, content] + lines[n + 1:])
        yield b"".join(l + b"\n" for l in lines[:n + 1] + [b""] + lines[n + 1:])
        yield b"".join(l + b"\n" for l in lines[:n] + [content + b"\r"] + lines[n + 1:])


def cut_texts(text):
    """The text cut at each line end, and one byte before and behind it."""
    for place, byte in enumerate(text):
        if byte == 10:
            yield text[:place]
            yield text[:place + 1]
            yield text[:place + 2]


def limit_texts():
    """Sizes at their limits and one above, and long texts."""
    for pins, arcs, tests in ((256, 0, 0), (257, 0, 0), (0, 0, 0), (1, 1024, 0), (1, 1025, 0), (1, 0, 64), (1, 0, 65), (256, 1024, 64), (9999999, 0, 0)):
        head = b"design\t%d\t%d\t%d\t1000000\n" % (pins, arcs, tests)
        if pins > 1000:
            yield head
            continue
        body = b"".join(b"pin\tR\t0\t1000000\n" if p == 0 else b"pin\tB\n" for p in range(pins))
        body += b"".join(b"arc\t0\t1\t%d\t1000000\n" % a for a in range(arcs))
        body += b"".join(b"test\t2\t3\t%d\t1000000\n" % t for t in range(tests))
        yield head + body
        yield head + body + b"ask\thold\t16\n"
    for length in (65536, 65537):
        yield plans.SHEET + b"x" * (length - len(plans.SHEET))
        yield b"\n" * length
    yield b""
    yield b"\n"
    yield b"\x00"
    yield plans.SHEET.replace(b"\n", b"\r\n")
    yield plans.SHEET.replace(b"\t", b" ")
    yield b"\xef\xbb\xbf" + plans.SHEET
    yield plans.SHEET[:-1]
    for tail in (b"x", b"\n", b"ask\tsetup\t3\n", b"\x00", b"\t"):
        yield plans.SHEET + tail
    for ask in (b"ask\tsetup\t17\n", b"ask\thold\t0\n", b"ask\tboth\t3\n", b"ask\tboth\n", b"ask\tsetup\t03\n", b"ask\tsetup\t12345678\n", b"ask\n", b"asks\tsetup\t3\n", b""):
        yield b"\n".join(plans.SHEET_LINES[:-1]) + b"\n" + ask
    for period in (0, 1, 1000000, 1000001, 9999999):
        yield plans.sheet_with({1: b"design\t7\t7\t2\t%d" % period})


def several_faults(text, chance):
    """Two to four bytes flipped, dropped, added or swapped."""
    for _ in range(chance.randrange(2, 5)):
        place = chance.randrange(len(text))
        text = chance.choice([
            text[:place] + bytes([text[place] ^ (1 << chance.randrange(8))]) + text[place + 1:],
            text[:place] + text[place + 1:],
            text[:place] + bytes([chance.choice(b"\t\n0123456789RBKID")]) + text[place:],
            text[:place] + text[place + 1:place + 2] + text[place:place + 1] + text[place + 2:],
        ])
    return text


SMALL = b"design\t3\t2\t1\t9\npin\tR\t1\t2\npin\tK\npin\tD\narc\t0\t1\t3\t4\narc\t1\t2\t5\t6\ntest\t1\t2\t7\t8\nask\thold\t2\n"


def stored_texts():
    """Every stored text, in a fixed order."""
    chance = random.Random(20261115)
    yield plans.SHEET
    yield SMALL
    yield from single_byte_faults(plans.SHEET, chance)
    yield from single_byte_faults(SMALL, chance)
    yield from field_faults(SMALL, chance)
    for _ in range(500):
        yield several_faults(chance.choice([plans.SHEET, SMALL]), chance)
    yield from field_faults(plans.SHEET, chance)
    yield from cut_texts(plans.SHEET)
    yield from limit_texts()
    for seed in range(60):
        yield plans.random_plan(seed).text("setup" if seed % 2 else "hold", 1 + seed % 16)
    for name, content in sorted(members_of("base.tar.xz").items()):
        if name.endswith(".in") and len(content) <= 1500:
            yield content


def room_for(text, chance):
    """The length of the room: ample, exact, one short, one over, or none."""
    answer, _ = toppaths.read(text, [0] * 5200)
    if answer[0] != "read":
        return chance.choice([0, 61, 5200])
    return max(0, answer[1] + chance.choice([0, 0, -1, 1, 7, -answer[1]]))


def lines_for(text, chance):
    """Line numbers to give back: the first, the last, outside, any."""
    last = text.count(b"\n")
    return [0, 1, 2, last, last + 1, last + 2, chance.randrange(last + 2)]


def expected_line(text, room, lines):
    """What the program must print of one stored text."""
    answer, after = toppaths.read(text, [FILL] * room)
    shown = 0
    for n in lines:
        _, content = toppaths.line(text, n)
        shown = mix(shown, len(content))
        for byte in content:
            shown = mix(shown, byte)
    return line_of(*answer, sum_of(after), shown)


def make():
    chance = random.Random(3)
    records, printed, seen = [], [], set()
    for text in stored_texts():
        if text in seen:
            continue
        seen.add(text)
        room, lines = room_for(text, chance), lines_for(text, chance)
        records.append(numbers([room, len(lines), *lines]) + text)
        printed.append(expected_line(text, room, lines))
    return packed(records), b"".join(printed)


if __name__ == "__main__":
    keep("cases_reading", "texts", make)
