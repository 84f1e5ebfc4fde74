"""What can be said of the blocks after a storm of node threads.

How often a node has nothing to build on depends on the threads, so in general
only bounds are told.
"""

import re

LINE = re.compile(r"node (\w+) events (\d+) forkers 0 round (\d+) "
                  r"closed (\d+) ordered (\d+)\n")


def names_of(members):
    """The names of the members that have a node."""
    return [member.name for member in members.list if member.node]


def certain(members, turns):
    """The lines, where no thread can change them; else None.

    Without turns there are no rows.  In its first turn a node makes its first
    row, whatever it was sent.  A node alone makes no other row.
    """
    names = names_of(members)
    if turns > 1 and len(names) > 1:
        return None
    events = min(turns, 1) * len(names)
    return [f"node {name} events {events} forkers 0 round {min(turns, 1)} "
            "closed 0 ordered 0" for name in names]


def is_lawful(members, turns, text):
    """Whether the text can be what a storm of more turns prints."""
    names = names_of(members)
    found = [match.groups() for match in LINE.finditer(text)]
    if "".join(match[0] for match in LINE.finditer(text)) != text:
        return False
    if [values[0] for values in found] != names:
        return False
    if len({values[1:] for values in found}) != 1:
        return False
    events, round_, closed, ordered = map(int, found[0][1:])
    stake = sum(member.stake for member in members.list if member.node)
    if 3 * stake <= 2 * sum(members.stakes) and round_ != 1:
        return False
    return (len(names) <= events <= len(names) * turns and ordered <= events
            and 1 <= round_ <= events and 0 <= closed <= max(0, round_ - 2)
            and (closed > 0 or ordered == 0))
