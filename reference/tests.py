#!/usr/bin/env python3
"""Tests of the second implementation of document 01.

    python3 reference/tests.py

Prints one line per group, each difference in full, and as its last line
`N passed, M failed`.  The exit status is 1 if anything failed.
"""

import sys
import time
import traceback

sys.dont_write_bytecode = True

import tests_asking
import tests_cases
import tests_list
import tests_paths
import tests_reading
import tests_sheet
import tests_stored

GROUPS = (tests_sheet.GROUPS + tests_reading.GROUPS + tests_asking.GROUPS
          + tests_paths.GROUPS + tests_list.GROUPS + tests_cases.GROUPS + tests_stored.GROUPS)


class Tally:
    """Counts what held and what did not, and says what did not."""

    def __init__(self):
        self.passed = 0
        self.failed = 0

    def same(self, what, got, wanted):
        """One test: the program's answer is the expected one."""
        if got == wanted:
            self.passed += 1
        else:
            self.failed += 1
            print(f"FAILED {what}\n  got    {shortened(got)}\n  wanted {shortened(wanted)}")

    def note(self, what):
        """Something the reader of the tests should know."""
        print(f"  note: {what}")


def shortened(value):
    """A value for the screen, cut if it is long."""
    shown = repr(value)
    return shown if len(shown) <= 400 else shown[:400] + " ..."


def run(group, tally):
    """Run one group; an exception in it is a failure, and the next group goes on."""
    before = tally.passed + tally.failed
    began = time.monotonic()
    try:
        group(tally)
    except Exception:
        tally.failed += 1
        print(f"FAILED {group.__name__} with an exception")
        traceback.print_exc(file=sys.stdout)
    number = tally.passed + tally.failed - before
    title = group.__doc__.split("\n")[0].rstrip(".")
    print(f"{number:6} tests {time.monotonic() - began:6.1f} s  {title}", flush=True)


def main():
    tally = Tally()
    for group in GROUPS:
        run(group, tally)
    print(f"{tally.passed} passed, {tally.failed} failed")
    sys.exit(1 if tally.failed else 0)


if __name__ == "__main__":
    main()
