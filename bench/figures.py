"""The figures that are wanted, each beside what was measured. Nothing here is typed by hand but what is wanted."""

from typing import Callable, NamedTuple

import dear
import designs
import growth
import report

LIMITS, DEAR, SHARE, BEND, BYTE, STACK = 0.8, 3.0, 0.6, 0.10, 30, 2_048
LEAST_TEXT = 500  # bytes; a smaller text shows what a call costs, and not a byte


class Figure(NamedTuple):
    """What is wanted of a figure, how it is written, and what was measured with where; none if it was not."""
    what: str
    most: float
    form: Callable
    found: tuple | None

    def row(self):
        """The figure as a row of a table."""
        if self.found is None:
            return [self.what, self.form(self.most), "-", "not measured", "-"]
        value, where = self.found
        return [self.what, self.form(self.most), self.form(value), "within" if value <= self.most else "OVER", where]


def most_asking(bench, designs):
    """The dearest asking of designs, in millions."""
    worst = report.most_in(bench, "asking", designs)
    return worst and (worst[0] / 1e6, worst[1])


def most_share(bench, groups):
    """The largest part that k = 1 takes of k = 16, over the dearest designs of those that defeat both bounds."""
    both = [design for design in groups.adverse if design.name in designs.BOTH]
    both += [one.design for one in report.dearest_of(bench, groups.dears) if dear.KINDS[one.made.kind].both]
    pairs = [(bench.has(design.asked(1).name, "asking"), bench.has(design.name, "asking"), design.name) for design in both]
    return max(((few / many, name) for few, many, name in pairs if few and many), default=None)


def most_bend(bench, series):
    """The largest bend of a series, of the asking alone."""
    columns = [(head, counts) for head, counts in report.columns_of(bench, series) if None not in counts and not head.startswith(report.FAST)]
    bends = [(growth.bend_of(series.sizes, counts), head) for head, counts in columns]
    return max(bends, default=None)


def wanted(bench, groups, frame):
    """All figures, in the order in which they are wanted."""
    read = [design for group in groups.read().values() for design in group] + groups.texts
    read = [design for design in read if len(design.text) >= LEAST_TEXT]
    figures = [Figure("asking, the six designs at the limits, Mi", LIMITS, "{:.2f}".format, most_asking(bench, groups.limits)),
               Figure("asking, the stored dear designs, Mi", DEAR, "{:.2f}".format, most_asking(bench, groups.adverse)),
               Figure("asking, the dearest designs found, Mi", DEAR, "{:.2f}".format, most_asking(bench, [one.design for one in groups.dears])),
               Figure("asking at k = 1 against k = 16, both bounds defeated", SHARE, "{:.2f}".format, most_share(bench, groups))]
    figures += [Figure(f"growth with {series.quantity}: bend", BEND, report.percent, most_bend(bench, series)) for series in growth.SERIES]
    figures += [Figure("reading, instructions a byte", BYTE, "{:.1f}".format, report.most_in(bench, "per byte", read)),
                Figure("stack of any routine, bytes", STACK, "{:,}".format, frame)]
    return figures


HEAD = f"""\
Each is held by the dearest design found, not the ordinary one. Growth counts as linear where the bend is at most {BEND:.0%}; a counter of n stages has 2^n
paths, so a cost for each path would show there. A byte is counted in texts of {LEAST_TEXT} bytes or more. The stack is the largest frame that `tests/frames.py`
finds.
"""


def section(bench, groups, frame):
    """The closing table, line by line."""
    rows = [figure.row() for figure in wanted(bench, groups, frame)]
    return ["## Figures wanted", ""] + report.fold(HEAD) + report.table(["what", "at most", "measured", "", "where"], rows)
