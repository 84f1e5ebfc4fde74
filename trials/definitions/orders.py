"""Orders as reports show them, and what has to hold of two."""

import collections
import re

# Creator and sequence, name, round, time and effect, as far as they are told.
ENTRY = re.compile(
    r"\d+ (?:(\w+ \d+) )?(?:([0-9a-f]{96}) )?(round \d+) (time \d+)"
    r"(?: (-|unread|paid \d+ of \d+)(?: ([0-9a-f]{96}))?)?\Z")


def orders_in(text):
    """Each block's node and its order; first what stands before any block."""
    orders = [("", [])]
    for line in text.decode().split("\n"):
        entry = ENTRY.match(line)
        if line.startswith("node "):
            orders.append((line.split()[1], []))
        elif entry:
            who, name, received, time, effect, last = entry.groups()
            orders[-1][1].append((who, name or last, received, time, effect))
    return orders


def begins(short, long):
    """Whether one order begins the other, as far as both tell."""
    return len(short) <= len(long) and all(
        one == other or one is None or other is None
        for pair in zip(short, long) for one, other in zip(*pair))


def forking(stakes, *graphs):
    """The stake of those who have a fork in all rows of the graphs together."""
    rows = {row.name: (row.creator, row.self_parent)
            for graph in graphs for row in graph}
    counts = collections.Counter(rows.values())
    forkers = {creator for (creator, _), count in counts.items() if count > 1}
    return sum(stakes[member] for member in forkers)
