"""The stored cases: what `toppaths` must print for a standard input, byte for byte.

Where the outputs come from is told in cases/README.md.
"""

import os
import subprocess
import sys
import tarfile

import toppaths
from plans import SHEET, SHEET_PRINTED

HERE = os.path.dirname(os.path.abspath(__file__))


def members_of(archive):
    """The archive's files as a dictionary from name to bytes."""
    with tarfile.open(os.path.join(HERE, "cases", archive), "r:xz") as packed:
        return {entry.name: packed.extractfile(entry).read() for entry in packed}


def command(text):
    """Run the program itself: its standard output, standard error and exit status."""
    run = subprocess.run([sys.executable, "-B", os.path.join(HERE, "toppaths.py")],
                         input=text, capture_output=True, check=False)
    return run.stdout, run.stderr, run.returncode


def names_in(members):
    """The names of the cases, each of which must have its input and its output."""
    return sorted(name[:-3] for name in members if name.endswith(".in"))


def packing(tally):
    """Stored cases: names sorted, times and owners zero, so that archives compare."""
    for archive in ("base.tar.xz", "limits.tar.xz"):
        with tarfile.open(os.path.join(HERE, "cases", archive), "r:xz") as packed:
            entries = packed.getmembers()
        names = [entry.name for entry in entries]
        tally.same(f"{archive} names", names, sorted(set(names)))
        tally.same(f"{archive} fixed", {(entry.mtime, entry.uid, entry.gid, entry.uname,
                                         entry.gname, entry.mode) for entry in entries},
                   {(0, 0, 0, "", "", 0o644)})


def base_cases(tally):
    """Stored cases: base."""
    members = members_of("base.tar.xz")
    names = names_in(members)
    told = {line.split("\t")[0]: line.split("\t")[1]
            for line in members["INDEX.tsv"].decode("ascii").splitlines()}
    tally.same("the index names each case", sorted(told), names)
    tally.same("nothing else is there", len(members), 2 * len(names) + 1)
    for place, name in enumerate(names):
        wanted = members[name + ".out"]
        tally.same(f"base/{name} ({told[name]})", toppaths.printed(members[name + ".in"]), wanted)
        if place % 10 == 0:
            tally.same(f"base/{name} by command", command(members[name + ".in"]), (wanted, b"", 0))


def limit_cases(tally):
    """Stored cases: limits."""
    members = members_of("limits.tar.xz")
    names = names_in(members)
    tally.same("nothing else is there", len(members), 2 * len(names))
    for name in names:
        wanted = members[name + ".out"]
        tally.same(f"limits/{name}", toppaths.printed(members[name + ".in"]), wanted)
        tally.same(f"limits/{name} by command", command(members[name + ".in"]), (wanted, b"", 0))


def the_command(tally):
    """The command: exact bytes, nothing on standard error, exit status 0."""
    tally.same("sheet", command(SHEET), (SHEET_PRINTED, b"", 0))
    tally.same("empty", command(b""), (b"refused\t2\t1\n", b"", 0))
    tally.same("too long", command(b"x" * 70_000), (b"refused\t1\t0\n", b"", 0))
    tally.same("megabytes", command(SHEET * 8_000), (b"refused\t1\t0\n", b"", 0))
    tally.same("any bytes", command(bytes(range(256))), (b"refused\t2\t1\n", b"", 0))


GROUPS = (the_command, packing, base_cases, limit_cases)
