"""The member file: its content, or the first fault in it."""

import re
import tomllib
from dataclasses import dataclass

from event import Fault

NAME = re.compile(r"[A-Za-z][A-Za-z0-9_]{0,15}\Z")
SECRET = re.compile(r"([0-9A-Fa-f]{2}){1,128}\Z")
GREATEST_BALANCE = 2**63 - 1
LONGEST_FILE = 1 << 20


@dataclass(frozen=True)
class Member:
    """One member of the file."""

    name: str
    secret: bytes
    balance: int
    node: bool
    stake: int


@dataclass(frozen=True)
class Members:
    """The members in the file's order, and the coin period."""

    coin: int
    list: tuple

    def number(self, name):
        """The number of the member with this name, or None."""
        for number, member in enumerate(self.list):
            if member.name == name:
                return number
        return None

    def secret(self, number):
        """The secret of a number; that of no bytes if it is no member's."""
        return self.list[number].secret if number < len(self.list) else b""

    @property
    def stakes(self):
        """The stakes in member order."""
        return [member.stake for member in self.list]


def too_great(value):
    """Whether a number anywhere in a value has no place in 64 bits."""
    if isinstance(value, dict):
        return any(map(too_great, value.values()))
    if isinstance(value, list):
        return any(map(too_great, value))
    return is_whole(value) and not -(2**63) <= value < 2**63


def is_whole(value):
    """Whether a value of the document is a whole number."""
    return type(value) is int


def read_document(data):
    """The tables of the file."""
    if len(data) > LONGEST_FILE:
        raise Fault("too-long")
    try:
        document = tomllib.loads(data.decode("utf-8"))
    except (UnicodeDecodeError, tomllib.TOMLDecodeError):
        raise Fault("not-toml") from None
    if too_great(document):
        raise Fault("not-toml")
    return document


def read_coin(document):
    """The coin period, 3 to 100, 10 if it is not said."""
    coin = document.get("coin", 10)
    if not is_whole(coin):
        raise Fault("coin 0")
    if not 3 <= coin <= 100:
        raise Fault(f"coin {coin}")
    return coin


def read_member(entry, number, names):
    """One member; `names` are those of the members before it."""
    name = entry.get("name") if isinstance(entry, dict) else None
    if not isinstance(name, str) or not NAME.match(name):
        raise Fault(f"name {number}")
    if name in names:
        raise Fault(f"double-name {number}")
    secret = entry.get("secret")
    if not isinstance(secret, str) or not SECRET.match(secret):
        raise Fault(f"secret {number}")
    balance = entry.get("balance", 0)
    if not is_whole(balance) or not 0 <= balance <= GREATEST_BALANCE:
        raise Fault(f"balance {number}")
    node = entry.get("node", True)
    if not isinstance(node, bool):
        raise Fault(f"node {number}")
    stake = entry.get("stake", 1)
    if not is_whole(stake) or not 1 <= stake <= 2**32 - 1:
        raise Fault(f"stake {number}")
    return Member(name, bytes.fromhex(secret), balance, node, stake)


def read_members(data):
    """The content of the member file; raises `Fault`."""
    document = read_document(data)
    coin = read_coin(document)
    entries = document.get("member")
    count = len(entries) if isinstance(entries, list) else 0
    if not 2 <= count <= 128:
        raise Fault(f"count {count}")
    members = []
    for number, entry in enumerate(entries):
        names = [member.name for member in members]
        members.append(read_member(entry, number, names))
    if sum(member.balance for member in members) > GREATEST_BALANCE:
        raise Fault("sum")
    return Members(coin, tuple(members))
