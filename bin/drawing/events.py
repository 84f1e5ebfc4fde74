"""The member file, the bytes of events, and payloads."""

import hashlib
import hmac
import tomllib

MAGICS = b"HGE1", b"HGE2"       # the second is of the events with several other-parents
NAME, SIGNATURE = 48, 64
OTHERS_MOST, PAYLOAD_MOST, TRANSFERS_MOST = 4, 1024, 64


class Refused(Exception):
    """Why bytes or a making are refused, in the words of the output."""


class Member:
    def __init__(self, number, entry):
        self.number, self.name = number, entry["name"]
        self.secret = bytes.fromhex(entry["secret"])
        self.balance, self.has_node = entry.get("balance", 0), entry.get("node", True)
        self.stake = entry.get("stake", 1)


class Members:
    """A member file that the program takes."""

    def __init__(self, path):
        with open(path, "rb") as file:
            tables = tomllib.load(file)
        self.coin = tables.get("coin", 10)
        self.all = [Member(number, entry) for number, entry in enumerate(tables["member"])]
        self.numbers = {member.name: member.number for member in self.all}
        self.n = len(self.all)
        self.stakes = [member.stake for member in self.all]


def name_of(data):
    return hashlib.sha384(data).digest()


def sign(secret, body):
    return hmac.new(secret, body, hashlib.sha512).digest()


def spell(member, parents, time, payload):
    """The bytes of an event by the member, on these parents' names, the self-parent's first, or on none."""
    others = len(parents[1:])
    body = MAGICS[others > 1] + member.number.to_bytes(2, "big") + bytes([others]) + b"".join(parents)
    body += time.to_bytes(8, "big") + len(payload).to_bytes(2, "big") + payload
    return body + sign(member.secret, body)


class Reader:
    def __init__(self, data):
        self.data, self.at = data, 0

    def take(self, count):
        if len(self.data) < self.at + count:
            raise Refused(f"short {len(self.data)}")
        self.at += count
        return self.data[self.at - count:self.at]

    def number(self, count):
        return int.from_bytes(self.take(count), "big")


class Fields:
    """What the bytes of an event say; Refused with the first thing that is wrong. Other bytes may follow where it is not
    the whole."""

    def __init__(self, data, whole=True):
        if not any(magic.startswith(data[:4]) for magic in MAGICS):
            raise Refused("bad-magic")
        reader = Reader(data)
        kinds = range(2) if reader.take(4) == MAGICS[0] else range(2, OTHERS_MOST + 1)
        self.creator = reader.number(2)
        kind = reader.number(1)
        if kind not in kinds:
            raise Refused(f"bad-kind {kind}")
        self.parents = [reader.take(NAME) for _ in range(kind + 1)] if kind else []
        self.time = reader.number(8)
        length = reader.number(2)
        if length > PAYLOAD_MOST:
            raise Refused(f"bad-length {length}")
        self.payload = reader.take(length)
        self.body = data[:reader.at]
        self.signature = reader.take(SIGNATURE)
        self.length = reader.at
        if whole and reader.at < len(data):
            raise Refused(f"trailing {len(data) - reader.at}")


def spell_transfers(transfers):
    pieces = [receiver.to_bytes(2, "big") + amount.to_bytes(8, "big") for receiver, amount in transfers]
    return bytes([len(pieces)]) + b"".join(pieces)


def read_transfers(payload):
    """The transfers (receiver, amount) of a payload, None where it is no payload of transfers."""
    if not payload or payload[0] > TRANSFERS_MOST or len(payload) != 1 + 10 * payload[0]:
        return None
    return [(int.from_bytes(payload[at:at + 2], "big"), int.from_bytes(payload[at + 2:at + 10], "big"))
            for at in range(1, len(payload), 10)]
