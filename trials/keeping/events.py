"""Members, and the bytes of their events, from docs/FORMATS.md alone: written and signed, and read."""

import hashlib
import hmac
from collections import namedtuple

# The two forms, and how many other-parents an event of each may have.
FORMS, LONGEST = {b"HGE1": range(2), b"HGE2": range(2, 5)}, 1024

# A member's name, its secret in bytes, its stake.
Member = namedtuple("Member", "name secret stake")
# The number of its creator, the names of its parents (none or two to five), the length of its spelling.
Event = namedtuple("Event", "creator parents time payload length")


def member_file(members):
    return "".join(f'[[member]]\nname = "{member.name}"\nsecret = "{member.secret.hex()}"\nstake = {member.stake}\n'
                   for member in members)


def number(value, size):
    return value.to_bytes(size, "big")


def signature_of(member, body):
    return hmac.digest(member.secret, body, "sha512")


def spelled(members, creator, parents, time, payload=b""):
    """The bytes of an event, signed with its creator's secret."""
    others = len(parents[1:])
    body = b"".join([b"HGE2" if others > 1 else b"HGE1", number(creator, 2), number(others, 1), *parents, number(time, 8),
                     number(len(payload), 2), payload])
    return body + signature_of(members[creator], body)


def name_of(data):
    return hashlib.sha384(data).digest()


def first_event(data):
    """The event that the bytes begin with; a ValueError tells the first fault."""
    at = 0

    def field(size):
        nonlocal at
        if len(data) < at + size:
            raise ValueError(f"short {len(data)}")
        at += size
        return data[at - size:at]

    if not any(form.startswith(data[:4]) for form in FORMS):
        raise ValueError("bad-magic")
    kinds = FORMS[field(4)]
    creator, kind = (int.from_bytes(field(size), "big") for size in (2, 1))
    if kind not in kinds:
        raise ValueError(f"bad-kind {kind}")
    parents = tuple(field(48) for _ in range(kind + 1)) if kind else ()
    time, length = (int.from_bytes(field(size), "big") for size in (8, 2))
    if length > LONGEST:
        raise ValueError(f"bad-length {length}")
    payload = field(length)
    field(64)
    return Event(creator, parents, time, payload, at)


def end_to_end(data):
    """The bytes of the events that stand one behind the other; a ValueError tells where the first one begins that is none, and
    its fault."""
    events, at = [], 0
    while at < len(data):
        try:
            length = first_event(data[at:]).length
        except ValueError as fault:
            raise ValueError(f"{at}: {fault}") from None
        events.append(data[at:at + length])
        at += length
    return events
