"""What is measured of a design, by which tools: rows, times and instructions."""

import math
import re
import subprocess
import sys
import tempfile
from pathlib import Path

import opensta
import tools

RUNS = 21          # of a quick process, for the median
SLOW_RUNS = 3      # of OpenSTA
NETWORKX_SECONDS = 20
BATCH = 16         # designs that are counted in one process


class Bench:
    """The tools that are there, what they were found to print, and what was measured, by the design's name and the column."""

    def __init__(self):
        self.reasons, self.figures, self.differences, self.compared = {}, {}, [], 0
        self.rows = {}            # of each design, as `toppaths` prints them
        self.counted = {}         # designs whose rows are right, for each program that is counted
        self.too_much = math.inf  # arcs x tests for networkx
        self.program = self.find("toppaths", tools.program)
        self.fast = self.find("fast", tools.fast)
        self.call = self.find("library", tools.call)
        self.networkx = self.find("networkx", tools.networkx)
        self.callgrind = self.find("callgrind", tools.callgrind)
        if not opensta.installed():
            self.reasons["OpenSTA"] = "the Debian package opensta is not installed"

    def find(self, name, make):
        """A tool's command; if it is absent the reason is kept."""
        command, reason = tools.found(make)
        if reason:
            self.reasons[name] = reason
        return command

    def put(self, name, column, value):
        """Keep a figure of a design."""
        self.figures[name, column] = value

    def has(self, name, column):
        """A figure of a design, or none."""
        return self.figures.get((name, column))

    # ---- rows

    def same(self, design, tool, got, wanted):
        """Hold what a tool gives to what is wanted; a tool that differs is not counted on that design."""
        self.compared += 1
        if got != wanted:
            self.differences.append(f"- {design.name}: {tool} gives {got[:300]!r}, wanted {wanted[:300]!r}")
        return got == wanted

    def agree(self, design):
        """The rows of the proved program, held to the stored ones, and those of the library and `fast` held to them."""
        try:
            wanted = self.rows[design.name] = tools.printed(self.program, design.text)
        except tools.Slow as slow:
            self.differences.append(f"- {design.name}: toppaths gives {slow}")
            return
        if design.stored is not None:
            self.same(design, "toppaths", wanted, design.stored)
        if self.call and self.same(design, "library", tools.printed(self.call, design.text), wanted):
            self.counted.setdefault(self.call, []).append(design)
        try:
            if self.fast and self.same(design, "fast", tools.printed(self.fast, design.text), wanted):
                self.counted.setdefault(self.fast, []).append(design)
        except tools.Slow as slow:
            self.reasons[f"fast on {design.name}"] = str(slow)

    # ---- instructions

    def count(self, say):
        """Instructions of the askings of all designs that were compared, and of their readings, by the program and then design by design."""
        jobs = [(self.call, "asking", tools.ASKING), (self.call, "reading", tools.READING), (self.fast, "fast asking", tools.FAST_ASKING)]
        for command, column, function in jobs:
            designs = self.counted.get(command, []) if self.callgrind else []
            for first in range(0, len(designs), BATCH):
                part = designs[first:first + BATCH]
                say(f"{column} {first + len(part)}/{len(designs)}")
                counts = tools.calls(command, [design.text for design in part], function, [self.rows[design.name] for design in part])
                for design, count in zip(part, counts):
                    self.put(design.name, column, count)
        for design in self.counted.get(self.call, []):
            if self.has(design.name, "reading"):
                self.put(design.name, "per byte", self.has(design.name, "reading") / len(design.text))

    def count_process(self, design):
        """Instructions of whole processes."""
        for column, command in (("process", self.program), ("fast process", self.fast)):
            if self.callgrind and command and (column == "process" or design in self.counted.get(self.fast, [])):
                self.put(design.name, column, tools.instructions(command, design.text, self.rows[design.name]))

    # ---- times

    def time(self, design):
        """The times of all tools and of a process that does nothing, and the slacks of OpenSTA and networkx."""
        slacks = [int(line.split(b"\t")[2]) for line in self.rows[design.name].splitlines()[:-1]]
        with tempfile.TemporaryDirectory() as folder:
            source = Path(folder) / "text"
            source.write_bytes(design.text)
            columns = {"nothing": ["/bin/true"], "toppaths": [self.program]} | ({"fast": [self.fast]} if self.fast else {})
            for column, time in zip(columns, tools.times(list(columns.values()), source, RUNS)):
                self.put(design.name, f"{column} ms", time)
            if opensta.installed():
                self.ask_opensta(design, source, slacks)
            if self.networkx and design.size() < self.too_much:
                self.ask_networkx(design, source, slacks)

    def ask_opensta(self, design, source, slacks):
        """Slacks and time of OpenSTA."""
        asked = opensta.asked_of(design.text)
        self.same(design, "OpenSTA", opensta.slacks(asked), slacks)
        opensta.prepare(asked, source.parent, opensta.first_reports(asked.k))
        command = ["/bin/sh", "-c", f"cd {source.parent} && exec {' '.join(opensta.COMMAND)}"]
        self.put(design.name, "OpenSTA ms", tools.times([command], source, SLOW_RUNS)[0])

    def ask_networkx(self, design, source, slacks):
        """Slacks and time of networkx; if it takes too long, no design of this size or above is tried again."""
        try:
            out = subprocess.run(self.networkx, input=design.text, capture_output=True, check=True, timeout=NETWORKX_SECONDS).stdout
            self.same(design, "networkx", [int(slack) for slack in out.split()], slacks)
            self.put(design.name, "networkx ms", tools.times([self.networkx], source, 1)[0])
        except subprocess.TimeoutExpired:
            self.too_much = design.size()


# ------------------------------------------------------------- what is measured of no design

def largest_frame():
    """The largest stack frame of the library's routines in bytes, and whose it is; none if it cannot be had."""
    run = subprocess.run([sys.executable, "-B", str(tools.ROOT / "tests" / "frames.py"), "--built"], capture_output=True, text=True, check=False)
    frames = [(int(size), name) for size, name in re.findall(r"^ *(\d+) bytes  (\S+),", run.stdout, re.M)]
    return max(frames, default=None)


def clearing():
    """What callgrind counts for clearing the work area in each of three ways; none if it cannot be had."""
    command, _ = tools.found(tools.clear)
    if command is None or tools.found(tools.callgrind)[1]:
        return None
    return {way: tools.calls(command, [b""], way)[0] for way in ("by_memset", "by_bytes", "by_words")}
