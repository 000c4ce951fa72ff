"""The report of the benchmark, as Markdown: its tables and its sentences. Every figure in it is computed from what was measured."""

import textwrap

import dear
import growth
import measure
import tools

HEAD = """\
# Benchmark

Made by `bench/run`: one run, the same designs for every tool, k = 16 where nothing else is said. `fast` is an unproved Rust program of the quickest method known
here at full optimisation (`bench/fast`). Times are of the whole process, the median of several runs: of `toppaths` in milliseconds, of the others as ratios to it
(`x`); `nothing` is a process that does nothing (`/bin/true`). Millions of instructions (`Mi`) are counted by callgrind: of the whole process (start, reading,
asking, printing), and of the asking alone (`chthonyra_ask` of the library for C, `ask` of `fast`). A dash: not measured.
"""

DEAR = """\
Designs made to be dear, of each kind the dearest that `bench/search` has found: it changes the numbers of a design again and again and keeps what takes more
instructions. `bench/dear.py` makes the kinds, `bench/worst.tsv` has the numbers. Reading is in instructions for each byte of the text.
"""

ADVERSE = """\
Stored designs that were made to be dear (`bench/designs/adverse.tar.xz`), with outputs of an independent model:
"""

GROWTH = """\
Instructions of the asking alone in millions. In each series one quantity grows and all else stays, over designs of which no test is left out (`bench/growth.py`).
`line` is the straight line nearest to the counts, n being what grows, and `off` how far the worst count is from it. `bend` says by what part the last count is
above the straight line through the first half of the series: 0% for growth in a straight line, less where it grows more slowly, much more where a square is in it.
"""

READING = """\
Instructions of `chthonyra_read` for each byte of the text, both passes together: the dearest text of each group above, and texts that were made to be dear to
read.
"""


# ------------------------------------------------------------- tables

def table(heads, rows):
    """A table that reads well as Markdown and on a screen."""
    cells = [heads] + [["" if cell is None else str(cell) for cell in row] for row in rows]
    widths = [max(len(row[column]) for row in cells) for column in range(len(heads))]
    lines = ["| " + " | ".join(cell.ljust(width) if place == 0 else cell.rjust(width) for place, (cell, width) in enumerate(zip(row, widths))) + " |"
             for row in cells]
    lines.insert(1, "|" + "|".join("-" * (width + 2) if place == 0 else "-" * (width + 1) + ":" for place, width in enumerate(widths)) + "|")
    return lines + [""]


def millions(count):
    """A count of instructions in millions."""
    return "-" if count is None else f"{count / 1e6:.2f}"


def decimals(value, places):
    """A number with so many decimals."""
    return "-" if value is None else f"{value:.{places}f}"


def percent(part):
    """A part in percent; no sign before 0."""
    return f"{round(100 * part) or 0}%"


def ratio(value, base):
    """How many times the base."""
    if value is None or base is None:
        return "-"
    times = value / base
    return f"{times:.2f}" if times < 10 else f"{times:,.0f}"


def whole_table(bench, designs):
    """Times as ratios and instructions of all tools."""
    heads = ["design", "toppaths ms", "nothing x", "fast x", "OpenSTA x", "networkx x", "toppaths Mi", "fast Mi", "asking Mi", "fast asking Mi"]
    rows = []
    for design in designs:
        base = bench.has(design.name, "toppaths ms")
        rows.append([design.name, decimals(base, 2)] + [ratio(bench.has(design.name, f"{tool} ms"), base) for tool in ("nothing", "fast", "OpenSTA", "networkx")]
                    + [millions(bench.has(design.name, column)) for column in ("process", "fast process", "asking", "fast asking")])
    return table(heads, rows)


ASKING_HEADS = ["asking Mi", "fast asking Mi", "k = 1 Mi", "fast k = 1 Mi", "k = 1 / k = 16", "reading"]


def asking_cells(bench, design):
    """The asking of a design at k = 16 and at k = 1, and its reading."""
    one = design.asked(1)
    ask, ask_one = bench.has(design.name, "asking"), bench.has(one.name, "asking")
    return [millions(ask), millions(bench.has(design.name, "fast asking")), millions(ask_one), millions(bench.has(one.name, "fast asking")), ratio(ask_one, ask),
            decimals(bench.has(design.name, "per byte"), 1)]


def adverse_table(bench, designs):
    """The stored dear designs."""
    return table(["design"] + ASKING_HEADS, [[design.name] + asking_cells(bench, design) for design in designs])


def dearest_of(bench, dears):
    """Of each kind, its dearest design by what was measured now."""
    best = {}
    for one in dears:
        old = best.get(one.made.kind)
        if old is None or (bench.has(one.design.name, "asking") or 0) > (bench.has(old.design.name, "asking") or 0):
            best[one.made.kind] = one
    return [best[kind] for kind in dear.KINDS if kind in best]


def dear_table(bench, dears):
    """The dearest design of each kind."""
    return table(["kind", "mode"] + ASKING_HEADS, [[one.made.kind, one.made.mode] + asking_cells(bench, one.design) for one in dearest_of(bench, dears)])


def kinds(dears):
    """What the kinds are."""
    return [f"- {kind}: {dear.KINDS[kind].what}{' (both bounds defeated)' if dear.KINDS[kind].both else ''}." for kind in dear.KINDS
            if any(one.made.kind == kind for one in dears)]


# ------------------------------------------------------------- growth

FAST = "fast "


def columns_of(bench, series):
    """The columns of a series: a head, and the counts of the asking along the sizes."""
    for tool, column in (("", "asking"), (FAST, "fast asking")):
        for family in series.families:
            for mode in growth.MODES:
                yield f"{tool}{family} {mode}", [bench.has(series.name(family, size, mode), column) for size in series.sizes]


def growth_table(bench, series):
    """The asking along a series; last the straight line, how far the counts are off it, and the bend."""
    rows = [[size] for size in series.sizes] + [["line"], ["off"], ["bend"]]
    heads = [series.quantity]
    for head, counts in columns_of(bench, series):
        heads.append(head)
        for row, count in zip(rows, counts):
            row.append(millions(count))
        if None in counts:
            shape = ["-", "-", "-"]
        else:
            start, slope, off = growth.line_of(series.sizes, counts)
            shape = [f"{start / 1e6:.2f} + {slope / 1e6:.3g} n", f"{off:.1%}", percent(growth.bend_of(series.sizes, counts))]
        for row, cell in zip(rows[-3:], shape):
            row.append(cell)
    return [f"In {series.quantity} ({series.fixed}):", ""] + table(heads, rows)


# ------------------------------------------------------------- reading, memory

def most_in(bench, column, designs):
    """The largest figure of a column over designs, and the design; none where nothing was measured."""
    return max(((bench.has(design.name, column), design.name) for design in designs if bench.has(design.name, column)), default=None)


def reading_table(bench, groups, texts):
    """The reading: the dearest text of each group, then each text that was made for it."""
    rows = []
    for name, designs in groups.items():
        worst = most_in(bench, "per byte", designs)
        rows.append([name, worst[1] if worst else "-", decimals(worst and worst[0], 1)])
    return table(["texts", "dearest", "a byte"], rows + [["made for it", design.name, decimals(bench.has(design.name, "per byte"), 1)] for design in texts])


def clearing_sentences(counts):
    """What callgrind counts for clearing memory."""
    if counts is None:
        return ["It was not measured."]
    how = "with `rep stosb`" if counts["by_memset"] >= counts["by_bytes"] else "with vectors"
    text = (f"Callgrind counts the one instruction `rep stos` as often as it stores: {counts['by_bytes']:,} times to clear the work area of 65,536 bytes byte "
            f"by byte, {counts['by_words']:,} times by eight bytes at a time (`bench/clear.c`). Every asking ends with this clearing, as a `memset` that the C "
            f"library does {how}: {counts['by_memset']:,} instructions ({millions(counts['by_memset'])} Mi) of each asking on this page. `fast` has no work "
            "area to clear.")
    return textwrap.wrap(text, 160)


# ------------------------------------------------------------- the whole

def fold(text):
    """A paragraph as lines, and an empty one."""
    return text.splitlines() + [""]


def head(bench):
    """What was run, on what, and whether the rows agree."""
    lines = fold(HEAD) + ["Taken on:", ""] + [f"- {line}" for line in tools.machine()] + [""]
    lines += [f"Absent: {name}: {reason}." for name, reason in bench.reasons.items()] + ([""] if bench.reasons else [])
    return lines + [f"Rows: {bench.compared} comparisons (`fast` and the library byte for byte, stored outputs byte for byte, OpenSTA and networkx by slacks), "
                    f"{len(bench.differences)} differences.", ""] + bench.differences + ([""] if bench.differences else [])


def report(bench, groups, clear, wanted):
    """The whole report, line by line. Groups that are empty are left out."""
    lines = head(bench)
    lines += ["## At the limits", "", "256 pins, 1,024 arcs, 64 tests.", ""] + whole_table(bench, groups.limits)
    if groups.dears or groups.adverse:
        lines += ["## Designs made to be dear", ""] + fold(ADVERSE) + adverse_table(bench, groups.adverse)
        lines += fold(DEAR) + dear_table(bench, groups.dears) + ["The kinds:", ""] + kinds(groups.dears) + [""]
    if groups.sized:
        lines += ["## A series in size", "", "Named by kind of clock (`bench/series.py`), pins, arcs, tests and mode. networkx has "
                  f"{measure.NETWORKX_SECONDS} s; designs larger than one that took longer are not tried.", ""] + whole_table(bench, groups.sized)
    if groups.grown:
        lines += ["## How the asking grows", ""] + fold(GROWTH)
        for series in growth.SERIES:
            lines += growth_table(bench, series)
    if groups.texts:
        lines += ["## Reading", ""] + fold(READING) + reading_table(bench, groups.read(), groups.texts)
        small = groups.smallest
        lines += [f"The smallest text, of {len(small.text)} bytes, takes {bench.has(small.name, 'reading') or 0:,} instructions in all.", ""]
    lines += ["## What callgrind counts for clearing memory", ""] + clearing_sentences(clear) + [""]
    return lines + wanted
