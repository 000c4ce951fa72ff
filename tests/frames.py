"""Measures the stack of the library: builds the archive, disassembles it, and says how many bytes each routine uses.

    python3 -B tests/frames.py [--built]      --built: the archive of the last `rt lib` in crates/chthonyra is taken as it is

A routine's frame is all that it pushes and all that it takes off the stack pointer, at the deepest point of any way through it, with what it touches below the
stack pointer; the return address is not in it. No frame may be above 2,048 bytes. The way through a routine is followed instruction by instruction, so a
stack pointer that is changed in a way not known here fails. Then the sources: no array above 1,024 bytes by value. The last line is 'N passed, 0 failed', N being
the routines and the sizes of arrays seen; exit status 1 if any failed.
"""

import os
import re
import subprocess
import sys

ROOT = os.path.dirname(os.path.dirname(os.path.abspath(__file__)))
LIBRARY = os.path.join(ROOT, "crates", "chthonyra")
ARCHIVE = os.path.join(LIBRARY, "out", "libchthonyra.a")
MOST_FRAME = 2048
MOST_ARRAY = 1024

# The crates whose code can be in the archive; programs keep their own arrays and are not looked at.
LIBRARIES = ("lists", "timing", "reader", "tables", "ranked", "clocks", "area", "arcs", "walker", "laying", "hints", "winners", "report", "chthonyra")

SIZES = {"bool": 1, "u8": 1, "i8": 1, "u16": 2, "i16": 2, "u32": 4, "i32": 4, "u64": 8, "i64": 8, "usize": 8, "isize": 8, "Candidate": 24}


class Routine:
    """One routine: its instructions by address, and whom it calls."""

    def __init__(self, name):
        self.name = name
        self.code = []
        self.calls = set()


def output_of(words, folder=ROOT):
    """What a command prints in a folder; it must succeed."""
    return subprocess.run(words, cwd=folder, check=True, stdout=subprocess.PIPE, stderr=subprocess.STDOUT).stdout.decode()


def routines_in(listing):
    """The routines of a disassembly with relocations."""
    found = []
    for line in listing.split("\n"):
        head = re.match(r"[0-9a-f]+ <(.+)>:$", line)
        if head:
            found.append(Routine(head.group(1)))
            continue
        moved = re.match(r"\s+[0-9a-f]+: R_X86_64_(?:PLT32|PC32)\s+(?:\.text\.)?([\w:]+)", line)
        if moved and found and found[-1].code and found[-1].code[-1][1] in ("call", "jmp"):
            found[-1].calls.add(moved.group(1))
            continue
        code = re.match(r"\s+([0-9a-f]+):\s+(?:(?:lock|rep|repz|repnz|data16|cs|notrack) )*(\S+)\s*(.*)$", line)
        if code and found:
            found[-1].code.append((int(code.group(1), 16), code.group(2), code.group(3).strip()))
    return found


def moved_by(name, operation, operands):
    """By how many bytes an instruction takes the stack pointer down."""
    if operation in ("push", "pushq"):
        return 8
    if operation in ("pop", "popq"):
        return -8
    if not re.search(r",%rsp$|^%rsp$", operands) or operation in ("cmp", "test", "cmpq"):
        return 0
    fixed = re.fullmatch(r"\$(0x[0-9a-f]+|-0x[0-9a-f]+),%rsp", operands)
    if fixed and operation in ("sub", "add"):
        size = int(fixed.group(1), 16)
        return size if operation == "sub" else -size
    sys.exit(f"{name}: the stack pointer is changed in a way that is not known here: {operation} {operands}")


def below_pointer(operands):
    """How far below the stack pointer an instruction reaches."""
    return max([int(far, 16) for far in re.findall(r"-(0x[0-9a-f]+)\(%rsp", operands)], default=0)


def next_of(routine, place):
    """Where the way goes on from the instruction at a place of the code; nothing is known of a jump through a register."""
    address, operation, operands = routine.code[place]
    after = [place + 1] if place + 1 < len(routine.code) else []
    if operation in ("ret", "retq", "ud2", "hlt"):
        return []
    if operation.startswith("j"):
        target = re.match(r"([0-9a-f]+) <", operands)
        there = [i for i, code in enumerate(routine.code) if target and code[0] == int(target.group(1), 16)]
        return there if operation == "jmp" else there + after
    return after


def spread(routine, depths, start, depth):
    """Follow every way from an instruction that is reached at a depth; a place reached at two depths fails."""
    waiting = [(start, depth)]
    deepest = 0
    while waiting:
        place, depth = waiting.pop()
        if place in depths:
            if depths[place] != depth:
                sys.exit(f"{routine.name}: one instruction at two depths of the stack")
            continue
        depths[place] = depth
        _, operation, operands = routine.code[place]
        after = depth + moved_by(routine.name, operation, operands)
        deepest = max(deepest, after, depth + below_pointer(operands))
        waiting += [(there, after) for there in next_of(routine, place)]
    return deepest


def frame_of(routine):
    """The bytes of stack of a routine. What only a jump through a register reaches is followed from that jump's depth."""
    depths = {}
    deepest = spread(routine, depths, 0, 0)
    for place, (_, operation, operands) in enumerate(routine.code):
        if place in depths or operation.startswith("nop") or operation == "xchg" and operands == "%ax,%ax" or operation == "int3":
            continue
        through = [depths[i] for i, code in enumerate(routine.code) if i in depths and code[1] == "jmp" and code[2].startswith("*")]
        if not through:
            sys.exit(f"{routine.name}: an instruction that no way reaches")
        deepest = max(deepest, spread(routine, depths, place, through[0]))
    return deepest


def chain_of(name, frames, calls):
    """The bytes of the deepest chain of calls from a routine, return addresses in it; the C library's own are not."""
    return 8 + frames[name] + max([chain_of(other, frames, calls) for other in calls[name] if other in frames], default=0)


def constants():
    """The numbers that `Design` names."""
    with open(os.path.join(ROOT, "crates", "timing", "src", "lib.rt"), encoding="utf-8") as source:
        return {"Design::" + name: int(value) for name, value in re.findall(r"pub const (\w+): \w+ = (\d+);", source.read())}


def arrays():
    """Each array of the sources: where, and its bytes; an element whose type is neither written nor a constant's counts as 24 bytes, the largest there is."""
    named = constants()
    for crate in LIBRARIES:
        path = os.path.join(ROOT, "crates", crate, "src", "lib.rt")
        with open(path, encoding="utf-8") as source:
            lines = source.readlines()
            typed = dict(re.findall(r"const (\w+): (\w+) =", "".join(lines)))
            for number, line in enumerate(lines, 1):
                for element, count in re.findall(r"(?<!&)\[([^\[\];]+); *((?:Design::)?\w+)\]", line.split("//")[0]):
                    kind = typed.get(element, re.sub(r"^\d+", "", element.strip()))
                    yield f"{crate}/src/lib.rt:{number}", SIZES.get(kind, 24) * (named[count] if count in named else int(count))


def main():
    """Measure, and hold the figures to their bounds."""
    if "--built" not in sys.argv[1:]:
        output_of(["rt", "lib"], LIBRARY)
    found = routines_in(output_of(["objdump", "-dr", "--no-show-raw-insn", ARCHIVE]))
    code = [name for kind, name in re.findall(r"^[0-9a-f]+ ([tT]) (.+)$", output_of(["nm", ARCHIVE]), re.M)]
    if sorted(code) != sorted(routine.name for routine in found) or not found:
        sys.exit("the routines of the disassembly are not those of the symbol table")
    frames = {routine.name: frame_of(routine) for routine in found}
    calls = {routine.name: routine.calls for routine in found}
    failed = 0
    for routine in sorted(found, key=lambda one: -frames[one.name]):
        far = frames[routine.name] > MOST_FRAME
        failed += far
        print(f"{frames[routine.name]:6} bytes  {routine.name}, {chain_of(routine.name, frames, calls)} with all it calls{'  TOO MANY' if far else ''}")
    sizes = list(arrays())
    for where, size in sizes:
        if size > MOST_ARRAY:
            failed += 1
            print(f"{where}: an array of {size} bytes by value")
    print(f"the largest array by value: {max(size for _, size in sizes)} bytes")
    print(f"{len(found) + len(sizes) - failed} passed, {failed} failed")
    sys.exit(1 if failed else 0)


if __name__ == "__main__":
    main()
