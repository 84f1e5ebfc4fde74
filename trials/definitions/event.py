"""Events as bytes: reading, writing, names and signatures.

Everything here is a plain function of its arguments.  An event is read field
by field, and the first field that is wrong gives the fault.
"""

import functools
import hashlib
from dataclasses import dataclass

SHORTEST_NAME = 48
SIGNATURE = 64
LONGEST_PAYLOAD = 1024


@dataclass(frozen=True)
class Row:
    """One event with its fields, its name and the bytes that spell it."""

    creator: int
    self_parent: bytes | None
    others: tuple
    time: int
    payload: bytes
    signature: bytes
    name: bytes
    spelling: bytes

    @property
    def body(self):
        """The bytes that the signature signs."""
        return self.spelling[:-SIGNATURE]


class Fault(Exception):
    """A refusal, kept as the text that the report prints for it."""

    def __init__(self, text):
        super().__init__(text)
        self.text = text


def name_of(data):
    """SHA-384 of the bytes."""
    return hashlib.sha384(data).digest()


@functools.lru_cache(4096)
def mac(secret, message):
    """HMAC with SHA-512, written out; a secret has at most 128 bytes."""
    key = secret.ljust(128, b"\0")
    inner = hashlib.sha512(bytes(b ^ 0x36 for b in key) + message).digest()
    return hashlib.sha512(bytes(b ^ 0x5C for b in key) + inner).digest()


class Reader:
    """Takes fields one after the other from the front of some bytes."""

    def __init__(self, data):
        self.data = data
        self.at = 0

    def take(self, size):
        """The next `size` bytes, or the fault that the input is too short."""
        if self.at + size > len(self.data):
            raise Fault(f"short {len(self.data)}")
        piece = self.data[self.at : self.at + size]
        self.at += size
        return piece

    def number(self, size):
        """The next `size` bytes as a number, the first byte the greatest."""
        return int.from_bytes(self.take(size), "big")


def read_magic(reader):
    """The fourth byte of the magic; a wrong byte comes before a short end."""
    head = reader.data[:4]
    for place, byte in enumerate(head):
        allowed = b"12" if place == 3 else b"HGE"[place : place + 1]
        if byte not in allowed:
            raise Fault("bad-magic")
    return reader.take(4)[3]


def read_kind(reader, version):
    """The number of other-parents; the second spelling has two to four."""
    kind = reader.number(1)
    lawful = range(0, 2) if version == ord("1") else range(2, 5)
    if kind not in lawful:
        raise Fault(f"bad-kind {kind}")
    return kind


def decode_first(data):
    """The first event of some bytes and its length; raises `Fault`."""
    reader = Reader(data)
    version = read_magic(reader)
    creator = reader.number(2)
    kind = read_kind(reader, version)
    self_parent = reader.take(SHORTEST_NAME) if kind else None
    others = tuple(reader.take(SHORTEST_NAME) for _ in range(kind))
    time = reader.number(8)
    length = reader.number(2)
    if length > LONGEST_PAYLOAD:
        raise Fault(f"bad-length {length}")
    payload = reader.take(length)
    signature = reader.take(SIGNATURE)
    spelling = data[: reader.at]
    row = Row(creator, self_parent, others, time, payload, signature,
              name_of(spelling), spelling)
    return row, reader.at


@functools.lru_cache(4096)
def decode(data):
    """The event that the bytes spell, wholly; raises `Fault`."""
    row, length = decode_first(data)
    if length < len(data):
        raise Fault(f"trailing {len(data) - length}")
    return row


def encode_body(creator, self_parent, others, time, payload):
    """The bytes of an event before its signature."""
    version = b"1" if len(others) < 2 else b"2"
    parents = b"" if self_parent is None else self_parent + b"".join(others)
    return (b"HGE" + version + creator.to_bytes(2, "big")
            + bytes([len(others)]) + parents + time.to_bytes(8, "big")
            + len(payload).to_bytes(2, "big") + payload)


def signed_event(secret, creator, self_parent, others, time, payload):
    """The bytes of an event that is signed with the secret."""
    body = encode_body(creator, self_parent, others, time, payload)
    return body + mac(secret, body)


def events_of(data):
    """The rows that make up the bytes end to end; raises (place, fault)."""
    rows, at = [], 0
    while at < len(data):
        try:
            row, length = decode_first(data[at:])
        except Fault as fault:
            raise Fault(f"event at {at}: {fault.text}") from None
        rows.append(row)
        at += length
    return rows
