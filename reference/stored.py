"""What the makers and the tests of stored cases share: numbers as bytes, a sum over what is left in lent memory, writing, checking and reading the stored files."""

import sys
from pathlib import Path

ROOT = Path(__file__).resolve().parent.parent
MODULUS = 1000003


def mix(total, value):
    """One number more in a sum that depends on order and on every place."""
    return (total * 131 + value % MODULUS + 1) % MODULUS


def sum_of(values):
    total = 0
    for value in values:
        total = mix(total, value)
    return total


def sum_signed(values):
    """The same of signed numbers: what each has above zero and what it has below."""
    return sum_of(part for value in values for part in (max(value, 0), max(-value, 0)))


def number(value):
    """A number below 2^32: one byte to 250; else 251 and two bytes, or 252 and four, the lowest first."""
    if value <= 250:
        return bytes([value])
    if value < 65536:
        return b"\xfb" + value.to_bytes(2, "little")
    return b"\xfc" + value.to_bytes(4, "little")


def numbers(values):
    return b"".join(map(number, values))


def packed(records):
    """Stored data: how many records, then each with its length in front, four bytes, the lowest first."""
    lengths = [len(records)] + [len(record) for record in records]
    return b"".join(length.to_bytes(4, "little") + record for length, record in zip(lengths, [b""] + records))


def line_of(*fields):
    """Fields as the programs print them."""
    return b"\t".join(str(x).encode() for x in fields) + b"\n"


def keep(crate, data_name, make):
    """Write the stored data and output of a crate, or with --check say whether they stand as made."""
    folder = ROOT / "crates" / crate
    data, printed = make()
    files = {folder / "data" / data_name: data, folder / "stdout": printed}
    if "--check" in sys.argv[1:]:
        wrong = [str(path.relative_to(ROOT)) for path, content in files.items()
                 if not path.exists() or path.read_bytes() != content]
        print(f"{crate}: " + ("stands as made" if not wrong else "differs: " + ", ".join(wrong)))
        sys.exit(1 if wrong else 0)
    for path, content in files.items():
        path.parent.mkdir(parents=True, exist_ok=True)
        path.write_bytes(content)
    print(f"{crate}: {printed.count(10)} cases, {len(data)} bytes")


def records_of(crate, name):
    """The stored records of a test program, each as its bytes."""
    data = (ROOT / "crates" / crate / "data" / name).read_bytes()
    count, at = int.from_bytes(data[:4], "little"), 4
    for _ in range(count):
        length = int.from_bytes(data[at:at + 4], "little")
        yield data[at + 4:at + 4 + length]
        at += 4 + length


def numbers_in(record):
    """The numbers in a record: one byte to 250; else 251 and two bytes, or 252 and four, the lowest first."""
    at = 0
    while at < len(record):
        width = {251: 2, 252: 4}.get(record[at], 0)
        yield int.from_bytes(record[at + 1:at + 1 + width], "little") if width else record[at]
        at += 1 + width


def lines_of(crate):
    """The expected lines, each as its fields."""
    return [line.split("\t") for line in (ROOT / "crates" / crate / "stdout").read_text("ascii").splitlines()]
