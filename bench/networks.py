"""Reports the slacks of the first k paths with networkx, the library that a Python user would take: its k shortest paths (Yen), for one test after the other.

    python3 bench/networks.py < design.txt

Prints one slack a line. It has no rule for equal slacks and is slow; it is there to be compared with.
"""

import itertools
import sys
from pathlib import Path

import networkx

sys.path.insert(0, str(Path(__file__).resolve().parent.parent / "reference"))
from opensta import asked_of  # noqa: E402

SOURCE = "source"


def clock_tree(plan):
    """The arcs of the clock tree as a graph, and the arrivals of its pins."""
    tree = networkx.DiGraph()
    root = next(pin for pin, row in enumerate(plan.pins) if row[0] == "R")
    tree.add_node(root)
    tree.add_edges_from((start, end) for start, end, _, _ in plan.arcs if plan.pins[end][0] in "BK")
    ranges = {end: (early, late) for _, end, early, late in plan.arcs if plan.pins[end][0] in "BK"}
    arrivals = {root: plan.pins[root][1:]}
    for start, end in networkx.bfs_edges(tree, root):
        arrivals[end] = tuple(map(sum, zip(arrivals[start], ranges[end])))
    return tree, arrivals


def shifted_graph(plan, setup):
    """The data arcs, each over a node of its own so that parallel ones differ. In setup a delay counts down from 1,000,000 for each pin that it rises."""
    graph = networkx.DiGraph()
    for number, (start, end, early, late) in enumerate(plan.arcs):
        if plan.pins[end][0] == "D":
            weight = 1_000_000 * (end - start) - late if setup else early
            graph.add_edge(start, ("arc", number), weight=weight)
            graph.add_edge(("arc", number), end, weight=0)
    return graph


def test_slacks(plan, setup, k, tree, arrivals, graph, test):
    """The least k slacks of one test."""
    clock, data, setup_time, hold_time = test
    brought = {}
    for pin, (letter, early, late) in enumerate(plan.pins):
        if letter == "K":
            early, late = arrivals[pin]
            common = arrivals[networkx.lowest_common_ancestor(tree, pin, clock)]
            credit = common[1] - common[0]
        if letter in "KI" and pin in graph:
            brought[pin] = (-late if setup else early) + (credit if letter == "K" else 0)
    least = min(brought.values())
    for pin, value in brought.items():
        graph.add_edge(SOURCE, pin, weight=value - least + (1_000_000 * pin if setup else 0))
    base = (arrivals[clock][0] + plan.period - setup_time - 1_000_000 * data if setup else -arrivals[clock][1] - hold_time) + least
    paths = itertools.islice(networkx.shortest_simple_paths(graph, SOURCE, data, weight="weight"), k)
    slacks = [base + networkx.path_weight(graph, path, "weight") for path in paths]
    graph.remove_node(SOURCE)
    return slacks


def main():
    """All tests, then the first k."""
    plan, mode, k = asked_of(sys.stdin.buffer.read())
    tree, arrivals = clock_tree(plan)
    graph = shifted_graph(plan, mode == "setup")
    found = [slack for test in plan.tests for slack in test_slacks(plan, mode == "setup", k, tree, arrivals, graph, test)]
    print(*sorted(found)[:k], sep="\n")


if __name__ == "__main__":
    main()
