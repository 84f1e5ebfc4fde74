"""A reader of journals, from docs/FORMATS.md alone. It knows what an event needs to be accepted, and nothing of fame."""

import hmac
from collections import namedtuple

from .events import end_to_end, first_event, name_of, number, signature_of

TAKEN, MADE, MARKS = 1, 2, 3
RECORD_HEAD = 4     # a gate, the kind, the length
PART = 64_000       # bytes of records that are enough for a part

Record = namedtuple("Record", "at kind body")
# "anew", "foreign", "broken" at a place, or "read": then the records, the rows that come of them, and where the closed gate is.
# Of a broken one they are what stands in front.
Journal = namedtuple("Journal", "word at records rows")


class Rows:
    """The events of a member's node."""

    def __init__(self, members, own):
        self.members, self.own = members, own
        self.names, self.creators = {}, {}      # places by name, creators by name
        self.last = {}                          # of each creator the event that was accepted last, by name
        self.parents = {}                       # of each creator the self-parents, None for none
        self.forkers = set()

    def __len__(self):
        return len(self.names)

    def forks(self, event):
        """Whether another event stands on its self-parent, or it is a second one without."""
        return event.parents[0] in self.parents.get(event.creator, ()) if event.parents else event.creator in self.last

    def fits(self, data, made):
        """The event, where the node accepts it; else None. One that it made has to be the next one of its own member."""
        try:
            event = first_event(data)
        except ValueError:
            return None
        creator, parents = event.creator, event.parents
        if event.length < len(data) or creator >= len(self.members):
            return None
        if not hmac.compare_digest(signature_of(self.members[creator], data[:-64]), data[-64:]):
            return None
        if made != (creator == self.own) or made and self.last.get(creator) != (parents[0] if parents else None):
            return None
        if parents and (self.creators.get(parents[0]) != creator
                        or any(self.creators.get(name, creator) == creator for name in parents[1:])):
            return None
        if self.forks(event):
            forkers = self.forkers | {creator}
            if 3 * sum(self.members[forker].stake for forker in forkers) >= sum(member.stake for member in self.members):
                return None
            self.forkers = forkers
        return event

    def answer(self, data, made=False):
        """What the node answers to the bytes that it is given: "accepted", "known" or "refused"."""
        name = name_of(data)
        if name in self.names:
            return "known"
        event = self.fits(data, made)
        if event is None:
            return "refused"
        self.names[name] = len(self.names)
        self.creators[name] = event.creator
        self.last[event.creator] = name
        self.parents.setdefault(event.creator, set()).add(event.parents[0] if event.parents else None)
        return "accepted"

    def changes(self, kind, body):
        """Whether a record changes something; of marks only whether they may."""
        if kind in (TAKEN, MADE):
            return self.answer(body, kind == MADE) == "accepted"
        if kind != MARKS or len(body) != 12:
            return False
        rows, share, shares = (int.from_bytes(body[at:at + 4], "big") for at in (0, 4, 8))
        return rows <= len(self) and share < shares


def head_of(members, own):
    return b"HGJ1" + number(len(members), 2) + number(own, 2)


def read(data, members, own):
    """What the bytes of a file are to the node of this member."""
    head, rows, records = head_of(members, own), Rows(members, own), []
    if len(data) <= 1 or data[0] == 0 and len(data) <= 10 or data[0] != 1 and data[1:] == head + b"\0":
        return Journal("anew", 0, records, rows)
    if data[:9] != b"\1" + head:
        return Journal("foreign", 0, records, rows)
    at = 9
    while data[at:at + 1] != b"\0":
        length = int.from_bytes(data[at + 2:at + RECORD_HEAD], "big")
        end = at + RECORD_HEAD + length
        if len(data) < max(end, at + RECORD_HEAD) or not rows.changes(data[at + 1], data[at + RECORD_HEAD:end]):
            return Journal("broken", at, records, rows)
        records.append(Record(at, data[at + 1], data[at + RECORD_HEAD:end]))
        at = end
    return Journal("read", at, records, rows)


def parts(records):
    """The records, kind and body, as one call of the program stores them: each part by two writes. They are in one part until they
    have more than 64,000 bytes with the gates between them."""
    part, held = [], 0
    for kind, body in records:
        if held > PART:
            yield part
            part, held = [], 0
        held += (1 if part else 0) + RECORD_HEAD - 1 + len(body)
        part.append((kind, body))
    if part:
        yield part


def writes(journal, before, records):
    """The writes, each a place and bytes, by which a file that is such a journal comes to have these records, kind and body,
    behind its own; with each write how many of the records are opened by it."""
    end = journal.at
    if journal.word == "anew":
        end = 9
        if before[:1] != b"\0":
            yield 0, b"\0", 0
        yield 1, head_of(journal.rows.members, journal.rows.own) + b"\0", 0
        yield 0, b"\1", 0
    for part in parts(records):
        piece = b"\1".join(number(kind, 1) + number(len(body), 2) + body for kind, body in part)
        yield end + 1, piece + b"\0", 0
        yield end, b"\1", len(part)
        end += 1 + len(piece)


def written(data, at, content):
    return data[:at] + content + data[at + len(content):]
