"""A node: its graph, its published marks and its history."""

from event import (LONGEST_PAYLOAD, Fault, decode, mac, name_of, signed_event)
from graph import Graph

MOST_ROWS = 1 << 20


def refuse_row(graph, members, row, own=None, restoring=False, known=None):
    """Raises the first fault of a row that is to follow those of the graph.

    `own` is the member that may not be played by others; None asks nothing.
    """
    if row.creator >= len(members.list):
        raise Fault(f"member {row.creator}")
    place = graph.place_by_name.get(row.name)
    if place is not None:
        if graph.rows[place].spelling != row.spelling:
            raise Fault(f"collision {place}")
        raise Known(place)
    if row.signature != mac(members.secret(row.creator), row.body):
        raise Fault("signature")
    if own is not None and own(row):
        raise Fault("impostor")
    refuse_parents(graph, row)
    forking = sum(graph.stakes[m] for m in graph.forkers_with(row))
    if 3 * forking >= graph.total:
        raise Fault(f"too-many-forkers {forking}")


class Known(Exception):
    """The graph holds the row already, at the place kept here."""

    def __init__(self, place):
        super().__init__(place)
        self.place = place


def refuse_parents(graph, row):
    """Raises the first fault of a row's parents."""
    if row.self_parent is None:
        return
    for name, word in [(row.self_parent, "self")] + [
            (name, "other") for name in row.others]:
        if name not in graph.place_by_name:
            raise Fault(f"missing-{word} {name.hex()}")
    place = graph.place_by_name[row.self_parent]
    if graph.rows[place].creator != row.creator:
        raise Fault(f"self-creator {place}")
    for name in row.others:
        place = graph.place_by_name[name]
        if graph.rows[place].creator == row.creator:
            raise Fault(f"other-creator {place}")


class Node:
    """The node of one member."""

    def __init__(self, members, own, limit=MOST_ROWS):
        self.members = members
        self.own = own
        self.limit = limit
        self.graph = Graph(members.stakes, members.coin)
        self.marks = {}
        self.ordered = (None, [])
        self.log = []

    @property
    def rows(self):
        """The rows in place order."""
        return self.graph.rows

    def last_own(self):
        """The node's last row of its own member, or None."""
        own = [row for row in self.rows if row.creator == self.own]
        return own[-1] if own else None

    def last_other(self):
        """The node's last row by another member, or None."""
        others = [row for row in self.rows if row.creator != self.own]
        return others[-1] if others else None

    def add(self, row, entry):
        """Adds a lawful row; a witness that comes too late is not famous."""
        length = len(self.rows)
        before = dict(self.marks)
        place = self.graph.add(row)
        round_ = self.graph.rounds[place]
        if (self.graph.is_witness[place]
                and self.graph.is_closed(before, round_, length)):
            self.marks[place] = False
        self.log.append(entry)
        return place

    def accept(self, data, own, kind):
        """Takes the bytes of an event, or raises `Known` or `Fault`."""
        row = decode(data)
        refuse_row(self.graph, self.members, row, own)
        if len(self.rows) >= self.limit:
            raise Fault(f"full {self.limit}")
        return self.add(row, (kind, row.spelling))

    def put(self, data):
        """The place of the row, which now stands; raises `Known`, `Fault`."""
        return self.accept(data, lambda row: row.creator == self.own, "took")

    def restore(self, data):
        """As `put`, but for rows that this node made before."""
        return self.accept(data, self.breaks_own_line, "made")

    def breaks_own_line(self, row):
        """Whether the row is not the next one of the node's own member."""
        last = self.last_own()
        wanted = None if last is None else last.name
        return row.creator != self.own or row.self_parent != wanted

    def make(self, others, time, payload):
        """Makes the next own row and gives its place; raises `Fault`."""
        last = self.last_own()
        if not others and last is not None:
            raise Fault("has-first")
        if others and last is None:
            raise Fault("no-first")
        for name in others:
            if name not in self.graph.place_by_name:
                raise Fault(f"missing-other {name.hex()}")
        for name in others:
            place = self.graph.place_by_name[name]
            if self.rows[place].creator == self.own:
                raise Fault(f"other-creator {place}")
        if len(payload) > LONGEST_PAYLOAD:
            raise Fault(f"payload-long {len(payload)}")
        data = signed_event(self.members.secret(self.own), self.own,
                            last and last.name, others, time, payload)
        if name_of(data) in self.graph.place_by_name:
            raise Fault(f"collision {self.graph.place_by_name[name_of(data)]}")
        if len(self.rows) >= self.limit:
            raise Fault(f"full {self.limit}")
        return self.add(decode(data), ("made", data))

    def remark(self, length, share=(0, 1)):
        """Publishes the fame in the first rows; the number of new marks."""
        part, of = share
        witnesses = [x for x in range(len(self.rows)) if self.graph.is_witness[x]]
        fame = self.graph.all_fame(length)
        new = [x for index, x in enumerate(witnesses)
               if index % of == part and x in fame and x not in self.marks]
        for x in new:
            self.marks[x] = fame[x]
        if new:
            self.log.append(("marked", length, part, of))
        return len(new)

    def settle(self):
        """Publishes the fame of the whole graph."""
        self.remark(len(self.rows))
        if self.marks != self.graph.all_fame(len(self.rows)):
            raise AssertionError("a mark is not the fame of the graph")

    def kept(self):
        """The order by the published marks; both only grow."""
        size = (len(self.rows), len(self.marks))
        if self.ordered[0] != size:
            self.ordered = (size, self.graph.order(self.marks, len(self.rows)))
        return self.ordered[1]

    def lacking(self, names):
        """The bytes of the rows whose names are not in the set."""
        return [row.spelling for row in self.rows if row.name not in names]

    def tips(self):
        """The names of the rows that are no row's parent."""
        parents = {p for places in self.graph.parents for p in places}
        return [row.name for place, row in enumerate(self.rows)
                if place not in parents]

    def beyond(self, names):
        """The bytes of the rows that are ancestors of no held one named."""
        below = 0
        for name in names:
            if name in self.graph.place_by_name:
                below |= self.graph.ancestors[self.graph.place_by_name[name]]
        return [row.spelling for place, row in enumerate(self.rows)
                if not below >> place & 1]
