"""Reading a text: refusals 1 to 5, their order, the lent room, and line n.

The expectations are written by hand from document 01's table of refusals.  The
changed texts are the bench sheet: line 1 `design`, lines 2 to 8 pins (R, B, K,
K, I, D, D), lines 9 to 15 arcs, lines 16 and 17 tests, line 18 `ask`.
"""

import random

import toppaths
from plans import SHEET, SHEET_LINES, SHEET_TABLE, Plan, sheet_with

ROOM = list(range(1000, 1100))


def refuses(tally, what, text, number, place, room=ROOM):
    """The reading is refused so, and the room is as it was."""
    lent = list(room)
    tally.same(what, toppaths.read(text, lent), (("refused", number, place), list(room)))
    tally.same(f"{what}: the caller's own room", lent, list(room))
    if number != 5:
        tally.same(f"{what}: printed", toppaths.printed(text),
                   b"refused\t%d\t%d\n" % (number, place))


def without(n):
    """The sheet without line n."""
    return b"".join(line + b"\n" for line in SHEET_LINES[:n - 1] + SHEET_LINES[n:])


def refusal_1(tally):
    """Refusal 1: text over 65,536 bytes."""
    for what, text in (
            ("65,537 bytes", b"x" * 65_537),
            ("only line ends", b"\n" * 65_537),
            ("a good text in front", SHEET + b"x" * (65_537 - len(SHEET))),
            ("a million bytes", b"\x00" * 1_000_000)):
        refuses(tally, what, text, 1, 0)
        refuses(tally, what + ", no room", text, 1, 0, [])
    refuses(tally, "65,536 bytes are not over", b"x" * 65_536, 2, 1)
    refuses(tally, "65,536 bytes with the sheet in front",
            SHEET + b"x" * (65_536 - len(SHEET)), 2, 19)


def refusal_2(tally):
    """Refusal 2: line absent, no byte 10, another word first, a line too many."""
    refuses(tally, "empty text", b"", 2, 1)
    refuses(tally, "a blank line", b"\n", 2, 1)
    refuses(tally, "design without byte 10", b"design\t1\t0\t0\t1", 2, 1)
    for n in range(1, 18):
        first = b"".join(line + b"\n" for line in SHEET_LINES[:n])
        refuses(tally, f"cut inside line {n}", first[:-2], 2, n)
        refuses(tally, f"cut before byte 10 of line {n}", first[:-1], 2, n)
        if n < 17:
            refuses(tally, f"cut after line {n}", first, 2, n + 1)
    refuses(tally, "cut inside ask", SHEET[:-3], 2, 18)
    refuses(tally, "cut before byte 10 of ask", SHEET[:-1], 2, 18)
    for n, line in ((1, b"Design\t7\t7\t2\t200"), (1, b"design 7 7 2 200"),
                    (1, b"\xef\xbb\xbfdesign\t7\t7\t2\t200"), (1, b"\tdesign\t7\t7\t2\t200"),
                    (1, b"design\r"), (3, b"pinB"), (3, b"pins\tB"), (3, b"Pin\tB"), (3, b""),
                    (3, b" pin\tB"), (3, b"pin B"), (3, b"\t"), (3, b"pin\x00\tB"),
                    (9, b"pin\tD"), (9, b"test\t0\t1\t4\t6"), (9, b"arcs\t0\t1\t40\t60"),
                    (16, b"arc\t0\t1\t40\t60"), (16, b"ask\tsetup\t3"),
                    (18, b"test\t3\t6\t25\t12"), (18, b""), (18, b"asks\tsetup\t3")):
        refuses(tally, f"line {n} is {line!r}", sheet_with({n: line}), 2, n)
    for n in (2, 8):
        refuses(tally, f"without pin line {n}", without(n), 2, 8)
    refuses(tally, "without an arc", without(9), 2, 15)
    refuses(tally, "without a test", without(16), 2, 17)


def lines_too_many(tally):
    """Refusal 2: what follows the last line, with its own number."""
    for behind in (b"x", b"x\n", b"\n", b"\t", b"ask\tsetup\t3\n", b"\x00", b"\r\n", b"\n\n"):
        refuses(tally, f"sheet and {behind!r}", SHEET + behind, 2, 19)
    without_ask = without(18)
    for behind in (b"x", b"x\n", b"\n", b"a", b"ask", b"ask\tsetup\t3", b"test\t3\t6\t25\t12\n"):
        refuses(tally, f"sheet without ask and {behind!r}", without_ask + behind, 2, 18)
    tally.same("cut exactly behind the last test", toppaths.read(without_ask, [0] * 61),
               (("read", 61, 0, 1), SHEET_TABLE))


def refusal_3(tally):
    """Refusal 3: wrong number of fields."""
    for n, line in ((1, b"design"), (1, b"design\t7\t7\t2"), (1, b"design\t7\t7\t2\t200\t0"),
                    (1, b"design\tx\t7\t2"), (1, b"design\t7\t7\t2\t200\t"), (1, b"design\t"),
                    (1, b"design\t999\t7\t2"),
                    (2, b"pin"), (2, b"pin\tR"), (2, b"pin\tR\t0"), (2, b"pin\tR\t0\t10\t0"),
                    (2, b"pin\tR\tx"), (2, b"pin\tR\t0\t10\t"), (6, b"pin\tI"), (6, b"pin\tI\t5"),
                    (3, b"pin\tB\t"), (3, b"pin\tB\t0\t0"), (4, b"pin\tK\t0"), (7, b"pin\tD\tx\ty"),
                    (9, b"arc"), (9, b"arc\t0\t1\t40"), (9, b"arc\t0\t1\t40\t60\t"),
                    (9, b"arc\tx"), (16, b"test"), (16, b"test\t3\t6\t25"),
                    (16, b"test\t3\t6\t25\t12\t0"),
                    (18, b"ask"), (18, b"ask\tsetup"), (18, b"ask\tboth"), (18, b"ask\tsetup\t3\t"),
                    (18, b"ask\tboth\tx\ty")):
        refuses(tally, f"line {n} is {line!r}", sheet_with({n: line}), 3, n)


BAD_NUMBERS = (b"", b"00", b"01", b"007", b"0000000", b"12345678", b"10000000", b"+1", b"-1", b"-0",
               b" 1", b"1 ", b"1\r", b"1.0", b"1e3", b"0x1", b"1_0", b"\xb2", b"\xd9\xa1", b"x",
               b"1\x00", b"99999999999999999999")


def refusal_4(tally):
    """Refusal 4: malformed number, unknown letter or mode word, P, A, T over limit."""
    for bad in BAD_NUMBERS:
        for field in range(1, 5):
            parts = SHEET_LINES[0].split(b"\t")
            parts[field] = bad
            refuses(tally, f"design field {field} {bad!r}", sheet_with({1: b"\t".join(parts)}), 4, 1)
        refuses(tally, f"pin {bad!r}", sheet_with({2: b"pin\tR\t0\t" + bad}), 4, 2)
        refuses(tally, f"arc {bad!r}", sheet_with({9: b"arc\t" + bad + b"\t1\t40\t60"}), 4, 9)
        refuses(tally, f"test {bad!r}", sheet_with({17: b"test\t2\t5\t20\t" + bad}), 4, 17)
        refuses(tally, f"k {bad!r}", sheet_with({18: b"ask\thold\t" + bad}), 4, 18)
    for line in (b"0\t7\t2\t200", b"257\t7\t2\t200", b"7\t1025\t2\t200", b"7\t7\t65\t200",
                 b"9999999\t9999999\t9999999\t9999999"):
        refuses(tally, f"design {line!r}", sheet_with({1: b"design\t" + line}), 4, 1)
    for line in (b"pin\t", b"pin\tX", b"pin\tX\t1\t2\t3", b"pin\tr\t0\t10", b"pin\tRR\t0\t10",
                 b"pin\tR \t0\t10", b"pin\t\tR\t0\t10", b"pin\tB\r", b"pin\t0", b"pin\tR\tx\ty",
                 b"pin\tR\t\t", b"pin\tI\t5\t"):
        refuses(tally, f"line 2 is {line!r}", sheet_with({2: line}), 4, 2)
    for word in (b"both", b"", b"Setup", b"setup ", b"0", b"setuphold", b"hold\r"):
        refuses(tally, f"mode {word!r}", sheet_with({18: b"ask\t" + word + b"\t3"}), 4, 18)
    refuses(tally, "CR LF throughout", SHEET.replace(b"\n", b"\r\n"), 4, 1)


def refusal_5(tally):
    """Refusal 5: table room short; it comes last; room exactly as long, longer."""
    for length in (0, 1, 4, 60):
        refuses(tally, f"room {length}", SHEET, 5, 0, ROOM[:length])
    for length in (61, 62, 100):
        tally.same(f"room {length}", toppaths.read(SHEET, ROOM[:length]),
                   (("read", 61, 0, 3), SHEET_TABLE + ROOM[61:length]))
    refuses(tally, "no room and a fault in the last line",
            sheet_with({18: b"ask\tboth\t3"}), 4, 18, [])
    refuses(tally, "no room and a line too many", SHEET + b"x", 2, 19, [])
    refuses(tally, "short room and a fault in the first line",
            sheet_with({1: b"design\t7\t7\t2\tx"}), 4, 1, ROOM[:60])
    tally.same("P = 1", toppaths.read(b"design\t1\t0\t0\t0\npin\tD\n", [5] * 8),
               (("read", 7, 0, 1), [1, 0, 0, 0, 4, 0, 0, 5]))
    refuses(tally, "P = 1, room 6", b"design\t1\t0\t0\t0\npin\tD\n", 5, 0, [5] * 6)


# Hand-made bad lines of the sheet: line number, content, refusal number.
BAD_LINES = [
    (1, b"designs\t7\t7\t2\t200", 2), (1, b"design\t7", 3), (1, b"design\t7\t7\t2\tx", 4),
    (2, b"", 2), (3, b"pin\tB\t0\t0", 3), (4, b"pin\tX\t1", 4), (5, b"pin", 3),
    (9, b"ark\t1\t2\t3\t4", 2), (10, b"arc\t1", 3), (11, b"arc\t1\t2\t3\t04", 4),
    (16, b"arc\t0\t1\t40\t60", 2), (17, b"test\tx", 3), (17, b"test\tx\t1\t1\t1", 4),
    (18, b"x", 2), (18, b"ask\tboth", 3), (18, b"ask\tboth\t3", 4),
]


def first_bad_line(tally):
    """Order: the first bad line decides, whatever follows."""
    for n, line, number in BAD_LINES:
        bad = sheet_with({n: line})
        refuses(tally, f"{line!r} and a line too many", bad + b"x", number, n)
        refuses(tally, f"{line!r} and nothing behind it",
                b"".join(part + b"\n" for part in bad.split(b"\n")[:n]), number, n)
        for later, other, _ in BAD_LINES:
            if later > n:
                refuses(tally, f"{line!r} before {other!r}",
                        sheet_with({n: line, later: other}), number, n)


def accepted_texts(tally):
    """Reading accepts what only the asking refuses, and the whole of the limits."""
    for n, line, place, value in (
            (1, b"design\t7\t7\t2\t0", 3, 0), (1, b"design\t7\t7\t2\t1000001", 3, 1_000_001),
            (1, b"design\t7\t7\t2\t9999999", 3, 9_999_999),
            (2, b"pin\tR\t0\t9999999", 6, 9_999_999), (9, b"arc\t300\t1\t40\t60", 25, 300),
            (12, b"arc\t2\t5\t1000001\t130", 39, 1_000_001),
            (17, b"test\t2\t5\t1000001\t10", 59, 1_000_001)):
        table = list(SHEET_TABLE)
        table[place] = value
        tally.same(f"line {n} is {line!r}", toppaths.read(sheet_with({n: line}), [0] * 61),
                   (("read", 61, 0, 3), table))
    for word, mode in ((b"setup", 0), (b"hold", 1)):
        for k in (0, 1, 16, 17, 9_999_999):
            tally.same(f"ask {word} {k}",
                       toppaths.read(sheet_with({18: b"ask\t%s\t%d" % (word, k)}), [0] * 61)[0],
                       ("read", 61, mode, k))
    largest = Plan(1, [("D", 0, 0)] * 256, [(0, 9_999_999, 1, 2)] * 1024, [(3, 4, 5, 6)] * 64)
    tally.same("256 pins, 1,024 arcs, 64 tests", toppaths.read(largest.text("hold", 16), [0] * 5124),
               (("read", 5124, 1, 16), largest.table()))
    refuses(tally, "the same, room one short", largest.text("hold", 16), 5, 0, [0] * 5123)


def line_by_hand(tally):
    """Line n: by hand."""
    for text, n, wanted in (
            (SHEET, 1, (0, b"design\t7\t7\t2\t200")), (SHEET, 2, (17, b"pin\tR\t0\t10")),
            (SHEET, 3, (28, b"pin\tB")), (SHEET, 18, (len(SHEET) - 12, b"ask\tsetup\t3")),
            (SHEET, 19, (len(SHEET), b"")), (SHEET, 0, (len(SHEET), b"")),
            (SHEET, 2 ** 64 - 1, (len(SHEET), b"")), (b"", 0, (0, b"")), (b"", 1, (0, b"")),
            (b"\n", 1, (0, b"")), (b"\n", 2, (1, b"")), (b"a", 1, (0, b"a")), (b"a", 2, (1, b"")),
            (b"a\n\nb", 1, (0, b"a")), (b"a\n\nb", 2, (2, b"")), (b"a\n\nb", 3, (3, b"b")),
            (b"a\n\nb", 4, (4, b"")), (b"a\n\nb\n", 3, (3, b"b")), (b"a\n\nb\n", 4, (5, b"")),
            (b"\n\n\n", 2, (1, b"")), (b"\n\n\n", 3, (2, b"")), (b"\n\n\n", 4, (3, b"")),
            (b"a\r\nb", 1, (0, b"a\r")), (b"x" * 70_000 + b"\ny", 2, (70_001, b"y"))):
        tally.same(f"line {n} of {text[:20]!r}", toppaths.line(text, n), wanted)


def line_at_random(tally):
    """Line n: the lines with byte 10 between them are the text."""
    chance = random.Random(3)
    for turn in range(300):
        text = bytes(chance.choice(b"ab\t\n\n\r\x00") for _ in range(chance.randint(0, 12)))
        count = text.count(b"\n") + (0 if text[-1:] in (b"\n", b"") else 1)
        parts = [toppaths.line(text, n) for n in range(1, count + 1)]
        joined = b"\n".join(part for _, part in parts) + (b"\n" if text[-1:] == b"\n" else b"")
        tally.same(f"text {turn} {text!r} joined", joined, text)
        in_place = all(b"\n" not in part and text[offset:offset + len(part)] == part
                       and text[:offset].count(b"\n") == n
                       for n, (offset, part) in enumerate(parts))
        tally.same(f"text {turn} {text!r} in place", in_place, True)
        tally.same(f"text {turn} {text!r} outside",
                   [toppaths.line(text, n) for n in (0, count + 1, count + 2)],
                   [(len(text), b"")] * 3)


def any_bytes(tally):
    """Any bytes: an answer of the right form, the room kept on a refusal."""
    chance = random.Random(4)
    for turn in range(1000):
        text = bytearray(SHEET)
        for _ in range(chance.randint(1, 3)):
            place = chance.randrange(len(text))
            text[place:place + chance.randint(0, 2)] = bytes(
                chance.choice(b"0123456789\t\t\n\nRBKIDxa-\x00\xff")
                for _ in range(chance.randint(0, 2)))
        answer, room = toppaths.read(bytes(text), ROOM)
        if answer[0] == "refused":
            held = room == ROOM and answer[1] in (2, 3, 4) and answer[2] >= 1
        else:
            held = room[answer[1]:] == ROOM[answer[1]:] and len(room) == len(ROOM)
        tally.same(f"changed sheet {turn} {bytes(text)!r}", held, True)
        last = toppaths.printed(bytes(text)).split(b"\n")[-2].split(b"\t")
        tally.same(f"changed sheet {turn} printed", (last[0] in (b"end", b"refused"), len(last)),
                   (True, 3))


GROUPS = (refusal_1, refusal_2, lines_too_many, refusal_3, refusal_4, refusal_5, first_bad_line,
          accepted_texts, line_by_hand, line_at_random, any_bytes)
