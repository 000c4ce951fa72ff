"""Runs the proved program over texts and holds what it prints to what is expected of it.

    python3 reference/program.py crates/toppaths/out/toppaths

The stored cases have their expected output beside them; of every other text the second implementation says what must be printed. Texts: the stored cases, the
texts of `stored_reading` whole and damaged, and random designs in both modes. The last line is 'N passed, 0 failed'; exit status 1 if any failed.
"""

import subprocess
import sys

import plans
import toppaths
from stored_reading import stored_texts
from tests_cases import members_of, names_in


def wanted_prints():
    """Pairs of a text and what must be printed of it."""
    for archive in ("base.tar.xz", "limits.tar.xz"):
        members = members_of(archive)
        for name in names_in(members):
            yield name, members[name + ".in"], members[name + ".out"]
    for place, text in enumerate(stored_texts()):
        yield f"text {place}", text, toppaths.printed(text)
    for seed in range(1000, 1400):
        text = plans.random_plan(seed).text("setup" if seed % 2 else "hold", 1 + seed % 16)
        yield f"design {seed}", text, toppaths.printed(text)


def main():
    """Run the program over every text."""
    passed, failed = 0, 0
    for name, text, wanted in wanted_prints():
        run = subprocess.run([sys.argv[1]], input=text, capture_output=True, check=False)
        if (run.stdout, run.stderr, run.returncode) == (wanted, b"", 0):
            passed += 1
        else:
            failed += 1
            print(f"{name}: printed {run.stdout[:200]!r}, exit status {run.returncode}; expected {wanted[:200]!r}")
    print(f"{passed} passed, {failed} failed")
    sys.exit(1 if failed else 0)


if __name__ == "__main__":
    main()
