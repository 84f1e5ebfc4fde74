"""The journal of a node: opening a file, replaying it and adding to it."""

from event import Fault
from node import Known, Node

TOOK, MADE, MARKED = 1, 2, 3
HEAD = 9
KINDS = {"took": TOOK, "made": MADE}


def head_of(members, own):
    """The bytes of the file between its first gate and its first record."""
    return (b"HGJ1" + len(members.list).to_bytes(2, "big")
            + own.to_bytes(2, "big"))


def is_made_anew(data, head):
    """Whether a file is one that a making may have left unfinished."""
    if len(data) <= 1 or (len(data) <= 10 and data[0] == 0):
        return True
    return len(data) == 10 and data[0] != 1 and data[1:] == head + b"\0"


class Stored:
    """A node with the file that holds its history."""

    def __init__(self, data, members, own):
        """Opens a file of these bytes; raises `Fault`."""
        self.node = Node(members, own)
        head = head_of(members, own)
        if is_made_anew(data, head):
            self.file = bytearray(b"\1" + head + b"\0")
        elif data[0] != 1 or data[1:HEAD] != head:
            raise Fault("foreign")
        else:
            self.file = bytearray(data)
        self.gate = HEAD
        while self.opened_record():
            pass

    def opened_record(self):
        """Replays the record at the gate; False where the gate is closed."""
        broken = Fault(f"broken {self.gate}")
        if self.gate >= len(self.file):
            raise broken
        if self.file[self.gate] == 0:
            return False
        front = self.file[self.gate + 1 : self.gate + 4]
        length = int.from_bytes(front[1:], "big")
        body = bytes(self.file[self.gate + 4 : self.gate + 4 + length])
        if len(front) < 3 or len(body) < length:
            raise broken
        if not self.replays(front[0], body):
            raise broken
        self.gate += 4 + length
        return True

    def replays(self, kind, body):
        """Carries out a record; False where it is none of this history."""
        if kind == MARKED:
            return self.replays_mark(body)
        if kind not in (TOOK, MADE):
            return False
        try:
            self.node.put(body) if kind == TOOK else self.node.restore(body)
        except (Fault, Known):
            return False
        return True

    def replays_mark(self, body):
        """Carries out a record of marks, which must mark something."""
        if len(body) != 12:
            return False
        length, part, of = (int.from_bytes(body[at : at + 4], "big")
                            for at in (0, 4, 8))
        if length > len(self.node.rows) or part >= of:
            return False
        return self.node.remark(length, (part, of)) > 0

    def store(self):
        """Writes the last entry of the node's history behind the gate."""
        entry = self.node.log[-1]
        if entry[0] == "marked":
            kind = MARKED
            body = b"".join(number.to_bytes(4, "big") for number in entry[1:])
        else:
            kind, body = KINDS[entry[0]], entry[1]
        record = bytes([kind]) + len(body).to_bytes(2, "big") + body + b"\0"
        self.file[self.gate + 1 : self.gate + 1 + len(record)] = record
        self.file[self.gate] = 1
        self.gate += len(record)

    def put(self, data):
        """The node's `put`, stored."""
        place = self.node.put(data)
        self.store()
        return place

    def make(self, others, time, payload):
        """The node's `make`, stored."""
        place = self.node.make(others, time, payload)
        self.store()
        return place

    def remark(self, length):
        """The node's `remark`, stored where it marked something."""
        marked = self.node.remark(length)
        if marked:
            self.store()
        return marked
