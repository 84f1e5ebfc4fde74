"""The graph in a certificate or a journal, row by row or record by record; docs/FORMATS.md has the bytes."""

from .events import Fields, Refused
from .play import Lines, Node

MAGIC, EVENT_MOST = b"HGP1", 1345
HEAD, RECORD_HEAD = 9, 4        # a journal's first gate and head; a record's gate, kind and length
TAKEN, MADE = 1, 2
GRAPH = "the certificate"


def number_at(data, at, count):
    if len(data) < at + count:
        raise Refused("the bytes end too early")
    return int.from_bytes(data[at:at + count], "big")


class Certificate(Lines):
    """The rows of a certificate, as they come to a graph that is no member's."""

    kind, step = "certificate", "row"

    def __init__(self, members, data):
        super().__init__(members)
        if data[:4] != MAGIC:
            raise Refused("this is no certificate")
        self.node = self.nodes[GRAPH] = Node(members, self.web, None)
        self.play(events_of(data))

    def do(self, data):
        self.node.check(data, self.line)
        event = self.node.rows[-1]
        self.script.append(f"{self.members.all[event.creator].name} {event.sequence} time {event.time}")

    def close(self):
        self.node.settle(self.end)
        order = self.node.decided.order
        self.print_lines([f"yes rows {len(self.node.rows)} ordered {len(order)}"])
        self.print_lines(f"{number} {row.event.name.hex()} round {row.received} time {row.time}"
                         for number, row in enumerate(order, 1))


def events_of(data):
    """The bytes of each event of a certificate."""
    at, events = 8, []
    for _ in range(number_at(data, 4, 4)):
        end = at + Fields(data[at:at + EVENT_MOST], whole=False).length
        events.append(data[at:end])
        at = end
    return events


class Journal(Lines):
    """The records of a journal, as they come to the node that it keeps."""

    kind, step = "journal", "record"

    def __init__(self, members, data, count):
        super().__init__(members)
        if data[:5] != b"\1HGJ1" or number_at(data, 5, 2) != members.n or number_at(data, 7, 2) >= members.n:
            raise Refused("this is no journal of one of these members")
        self.member = members.all[number_at(data, 7, 2)]
        self.node = self.nodes[self.member.name] = Node(members, self.web, self.member)
        records = records_of(data)
        self.given = len(records)
        self.data = data[:HEAD] + b"".join(records[:count]) + b"\0"      # the journal of the records that are played
        self.play(records[:count])

    def do(self, record):
        kind, body = record[1], record[RECORD_HEAD:]
        if kind in (TAKEN, MADE):
            (self.node.restore if kind == MADE else self.node.check)(body, self.line)
            event = self.node.rows[-1]
            word = "made" if kind == MADE else "took"
            self.script.append(f"{word} {self.members.all[event.creator].name} {event.sequence} time {event.time}")
        else:
            rows, share, shares = (number_at(body, at, 4) for at in (0, 4, 8))
            count = self.node.publish_share(rows, share, shares, self.line)
            part = f"share {share} of {shares}, " if shares > 1 else ""
            self.script.append(f"published fame of {count} witnesses: {part}decided in the first {rows} rows")

    def close(self):
        self.print_lines([f"opened {len(self.node.rows)}", "accepted 0 known 0 refused 0"])
        self.node.settle(self.end)
        self.print_lines(self.node.block(self.node.kept))


def records_of(data):
    """The records of a journal, each from its gate on."""
    at, records = HEAD, []
    while number_at(data, at, 1):
        end = at + RECORD_HEAD + number_at(data, at + 2, 2)
        records.append(data[at:end])
        at = end
    return records
