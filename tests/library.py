"""Builds the library, links it into the C program and the Rust crate, and holds what they print to what the second implementation says.

    python3 -B tests/library.py

gcc and cargo are installed by apt-get where they are absent; without them it fails. Steps: `rt lib` in crates/chthonyra; the C
program and the C tests compiled with every warning an error, and run; the names that the archive wants from outside; the Rust crate's own
tests, with no network; both examples run over texts. The last line is 'N passed, 0 failed'; exit status 1 if any failed.
"""

import os
import re
import shutil
import subprocess
import sys

ROOT = os.path.dirname(os.path.dirname(os.path.abspath(__file__)))
sys.path.insert(0, os.path.join(ROOT, "reference"))

import plans  # noqa: E402
import toppaths  # noqa: E402
from program import wanted_prints  # noqa: E402

MADE = os.path.join(ROOT, "target", "library")
LIBRARY = os.path.join(ROOT, "crates", "chthonyra")
ARCHIVE = os.path.join(LIBRARY, "out", "libchthonyra.a")
FROM_OUTSIDE = {"memcpy", "memset"}  # all that README.md and include/chthonyra.h let the archive want of the C library
WARNINGS = ["-std=c11", "-O2", "-Wall", "-Wextra", "-Werror", "-pedantic", "-I" + os.path.join(ROOT, "include")]


def must(words, **named):
    """Run a command that must succeed; its output is shown where it does not."""
    run = subprocess.run(words, stdout=subprocess.PIPE, stderr=subprocess.STDOUT, check=False, **named)
    if run.returncode != 0:
        sys.stdout.buffer.write(run.stdout)
        sys.exit(f"{' '.join(words)}: exit status {run.returncode}")
    return run.stdout


def need(command, *packages):
    """Have a command, by apt-get where it is absent."""
    if shutil.which(command) is None:
        must(["apt-get", "update", "-qq"])
        must(["apt-get", "install", "-y", "-qq", *packages])
    if shutil.which(command) is None:
        sys.exit(f"{command} is absent and could not be installed")


def compiled(name, source):
    """The path of a C program, compiled from a source and linked with the archive."""
    path = os.path.join(MADE, name)
    must(["gcc", *WARNINGS, os.path.join(ROOT, source), ARCHIVE, "-o", path])
    return path


def wanted_names():
    """The names that the archive takes from outside."""
    lines = [line.split() for line in must(["nm", "-u", ARCHIVE]).decode().split("\n")]
    return {words[1] for words in lines if len(words) == 2}


def cargo(*words):
    """Run cargo over the crate, with no network and its files under target/."""
    named = dict(os.environ, CARGO_TARGET_DIR=os.path.join(ROOT, "target", "rust"))
    return must(["cargo", *words, "--offline", "--manifest-path", os.path.join(ROOT, "rust", "Cargo.toml")], env=named).decode()


def rust_tests():
    """The number of tests of the crate; none may fail, and each file must have run."""
    counts = re.findall(r"test result: ok\. (\d+) passed; 0 failed; 0 ignored", cargo("test"))
    if len(counts) < 6 or sum(map(int, counts)) < 23:
        sys.exit("the crate's tests did not all run")
    return sum(map(int, counts))


def shown_line(text, printed):
    """What an example shows on standard error: the refused line of a text that is refused at a line, as the second implementation cuts it."""
    fields = printed.split(b"\t")
    if fields[0] != b"refused" or fields[1] not in (b"2", b"3", b"4"):
        return None
    offset, line = toppaths.line(text, int(fields[2]))
    assert text[offset:offset + len(line)] == line
    return line


def chosen():
    """Names, texts and expected prints: the bench sheet as the document prints it, and all that the proved program is run over."""
    yield "bench sheet", plans.SHEET, plans.SHEET_PRINTED
    yield from wanted_prints()


def dotted(line):
    """A line as the C example shows it: a dot for each byte that is neither a tab nor printable."""
    return bytes(byte if byte == 9 or 32 <= byte < 127 else ord(".") for byte in line)


def escaped(line):
    """A line as the Rust example shows it: escapes as in Rust's byte strings."""
    named = {9: b"\\t", 10: b"\\n", 13: b"\\r", 34: b'\\"', 39: b"\\'", 92: b"\\\\"}
    return b"".join(named.get(byte) or (bytes([byte]) if 32 <= byte < 127 else b"\\x%02x" % byte) for byte in line)


def agrees(program, show, text, wanted):
    """Whether an example prints what is wanted, ends with the right status, and shows the refused line where there is one."""
    run = subprocess.run([program], input=text, capture_output=True, check=False)
    line = shown_line(text, wanted)
    shown = b"" if line is None else b"line " + wanted.split(b"\t")[2].strip() + b": " + show(line) + b"\n"
    return (run.stdout, run.stderr, run.returncode) == (wanted, shown, 1 if wanted.startswith(b"refused") else 0)


def main():
    """Build, run, compare."""
    need("gcc", "gcc", "libc6-dev")
    need("cargo", "cargo")
    os.makedirs(MADE, exist_ok=True)
    must(["rt", "lib"], cwd=LIBRARY)
    passed = rust_tests()
    print(f"the Rust crate: {passed} tests")
    tests = must([compiled("buffers", "tests/buffers.c")]).decode()
    passed += int(re.fullmatch(r"(\d+) passed, 0 failed", tests.strip().split("\n")[-1]).group(1))
    print(f"the C tests: {tests.strip()}")
    cargo("build", "--example", "worst")
    rust_example = os.path.join(ROOT, "target", "rust", "debug", "examples", "worst")
    examples = ((compiled("worst", "examples/c/worst.c"), dotted), (rust_example, escaped))
    failed = 0
    names = wanted_names()
    if names == FROM_OUTSIDE:
        passed += 1
    else:
        failed += 1
        print(f"the archive wants {sorted(names)} from outside, not {sorted(FROM_OUTSIDE)}")
    for name, text, wanted in chosen():
        for program, show in examples:
            if agrees(program, show, text, wanted):
                passed += 1
            else:
                failed += 1
                print(f"{name}: {program} printed something else than {wanted[:200]!r}")
    print(f"{passed} passed, {failed} failed")
    sys.exit(1 if failed else 0)


if __name__ == "__main__":
    main()
