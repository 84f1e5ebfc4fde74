"""The script: its lines, or the first line that is refused and why."""

import re
from dataclasses import dataclass

from event import Fault
from members import NAME

LONGEST_FILE = 16 << 20
GREATEST = 2**64 - 1
MOST_WORKERS = 16
MOST_TRANSFERS = 64
NUMBER = re.compile(r"[0-9]{1,20}\Z")
HEX = re.compile(r"([0-9A-Fa-f]{2})*\Z")
TRANSFER = re.compile(r"[^=]*=[^=]*\Z")

# The kinds of the arguments of each line; a kind in brackets may be left out.
LINES = {
    "create": ["node", "time", "[payload]"],
    "sync": ["node", "peer", "time", "[payload]"],
    "pull": ["node", "peer"],
    "join": ["node", "labels", "time", "[payload]"],
    "name": ["new", "node"],
    "forge": ["new", "member", "label-or-none", "labels-or-none", "time",
              "[payload]"],
    "raw": ["new", "hex"],
    "alter": ["new", "label", "time", "byte"],
    "cut": ["new", "label", "time"],
    "give": ["node", "label"],
    "freeze": ["node", "worker"],
    "publish": ["node", "worker"],
    "kept": ["node"],
    "show": ["node"],
    "names": ["node"],
}


@dataclass(frozen=True)
class Line:
    """One line of the script that does something."""

    number: int
    word: str
    arguments: list


def read_number(word, greatest=GREATEST):
    """A decimal number of at most 20 digits."""
    if not NUMBER.match(word) or int(word) > greatest:
        raise Fault("number")
    return int(word)


def read_hex(word, least, most):
    """The bytes of a hexadecimal text."""
    if not HEX.match(word) or not least <= len(word) // 2 <= most:
        raise Fault("payload")
    return bytes.fromhex(word)


def read_transfers(text, members):
    """The payload of the transfers of a `pay:` word."""
    items = text.split(",")
    if len(items) > MOST_TRANSFERS or not all(map(TRANSFER.match, items)):
        raise Fault("payload")
    payload = bytes([len(items)])
    for item in items:
        name, amount = item.split("=")
        if name.startswith("#"):
            receiver = read_number(name[1:], 65535)
        else:
            receiver = members.number(name)
            if receiver is None:
                raise Fault("member")
        payload += receiver.to_bytes(2, "big")
        payload += read_number(amount).to_bytes(8, "big")
    return payload


class ScriptReader:
    """Reads the lines in order and knows what stands above each."""

    def __init__(self, members, workers):
        self.members = members
        self.workers = workers
        self.labels = set()
        self.created = set()

    def argument(self, kind, word, before):
        """The value of one argument; `before` has those to its left."""
        if kind in ("node", "peer", "member"):
            return self.member(kind, word, before)
        if kind == "time":
            return read_number(word)
        if kind == "byte":
            return read_number(word, 255)
        if kind == "worker":
            return read_number(word, MOST_WORKERS - 1)
        if kind == "payload":
            return self.payload(word)
        if kind == "hex":
            return read_hex(word, 1, 4096)
        if kind == "new":
            return self.new_label(word)
        return self.old_labels(kind, word, before)

    def member(self, kind, word, before):
        """The number of a member, which may need a node."""
        number = self.members.number(word)
        if number is None or (kind == "peer" and number == before[0]):
            raise Fault("member")
        if kind != "member" and not self.members.list[number].node:
            raise Fault("no-node")
        return number

    def payload(self, word):
        """The bytes of a payload word."""
        if word.startswith("hex:"):
            return read_hex(word[4:], 0, 1024)
        if word.startswith("pay:"):
            return read_transfers(word[4:], self.members)
        raise Fault("payload")

    def new_label(self, word):
        """A label that this line makes."""
        if not NAME.match(word):
            raise Fault("label")
        if word in self.labels:
            raise Fault("double-label")
        return word

    def old_labels(self, kind, word, before):
        """A label or a list of labels made above; `-` stands for none."""
        if kind == "label-or-none" and word == "-":
            return None
        if kind == "labels-or-none" and word == "-":
            if before[-1] is not None:
                raise Fault("label")
            return []
        if kind == "labels-or-none" and before[-1] is None:
            raise Fault("label")
        single = kind in ("label", "label-or-none")
        labels = [word] if single else word.split(",")
        if len(labels) > 4 or not set(labels) <= self.labels:
            raise Fault("label")
        return word if single else labels

    def line(self, number, text):
        """The line of a text, or None where it does nothing."""
        words = [word for word in re.split("[ \t]+", text) if word]
        if not words or words[0].startswith("#"):
            return None
        kinds = LINES.get(words[0])
        if kinds is None:
            raise Fault("word")
        least = sum(not kind.startswith("[") for kind in kinds)
        if not least <= len(words) - 1 <= len(kinds):
            raise Fault("arity")
        values = []
        for kind, word in zip(kinds, words[1:]):
            values.append(self.argument(kind.strip("[]"), word, values))
        if kinds[-1] == "[payload]" and len(values) < len(kinds):
            values.append(b"")
        self.check_place(words[0], values)
        return Line(number, words[0], values)

    def check_place(self, word, values):
        """Whether the line may stand here, and what it brings for others."""
        if word == "create" and values[0] in self.created:
            raise Fault("not-first")
        if word in ("sync", "join") and values[0] not in self.created:
            raise Fault("first")
        if word in ("freeze", "publish", "kept") and self.workers > 0:
            raise Fault("workers")
        if word == "create":
            self.created.add(values[0])
        if LINES[word][0] == "new":
            self.labels.add(values[0])


def read_script(data, members, workers=0):
    """The lines of a script; raises `Fault` with the line and the why."""
    if len(data) > LONGEST_FILE:
        raise Fault("script: too-long")
    reader = ScriptReader(members, workers)
    pieces = data.split(b"\n")
    ended = [piece.removesuffix(b"\r") for piece in pieces[:-1]]
    lines = []
    for number, piece in enumerate(ended + pieces[-1:], 1):
        try:
            line = reader.line(number, decode_line(piece))
        except Fault as fault:
            raise Fault(f"script line {number}: {fault.text}") from None
        if line is not None:
            lines.append(line)
    return lines


def decode_line(piece):
    """The text of a line's bytes."""
    try:
        return piece.decode("utf-8")
    except UnicodeDecodeError:
        raise Fault("utf8") from None
