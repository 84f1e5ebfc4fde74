"""Certificates, journals and messages with damage to one of their parts."""

import certificate
from damage import any_damage, cut, flip, grow, set_number
from event import Fault, decode, signed_event
from journal import HEAD, Stored
from node import Known


def parts_of(data):
    """The spellings of the rows, and the entries, of a certificate."""
    rows, entries = certificate.read_form(data)
    return [row.spelling for row in rows], entries


def certificate_of(spellings, entries):
    """The certificate that has just these rows and entries."""
    return (certificate.MAGIC + len(spellings).to_bytes(4, "big")
            + b"".join(spellings) + len(entries).to_bytes(4, "big")
            + b"".join(a.to_bytes(4, "big") + b.to_bytes(4, "big")
                       + c.to_bytes(8, "big") for a, b, c in entries))


def damaged_event(rng, data):
    """An event with one of its fields changed."""
    kind = data[6]
    time = 7 + 48 * (kind + 1 if kind else 0)
    length = time + 8
    at = rng.choice([0, 3, 4, 5, 6, 7, 8, time, length, length + 1, length + 2,
                     len(data) - 1, rng.randrange(len(data))])
    mask = rng.choice([1, 2, 3, 4, 8, 128])
    return data[:at] + bytes([data[at] ^ mask]) + data[at + 1 :]


def signed_row(rng, members, rows):
    """A well signed row on any of the rows given, whoever made them."""
    creator = rng.randrange(len(members.list))
    parents = (None, ())
    if rows and rng.random() < 0.8:
        decoded = [decode(row) for row in rows]
        own = [row.name for row in decoded if row.creator == creator]
        alien = [row.name for row in decoded if row.creator != creator]
        any_name = [row.name for row in decoded]
        first = rng.choice(own if own and rng.random() < 0.8 else any_name)
        fit = alien if alien and rng.random() < 0.8 else any_name
        parents = (first, tuple(rng.choice(fit) for _ in range(rng.randint(1, 4))))
    return signed_event(members.secret(creator), creator, *parents,
                        rng.getrandbits(64), b"")


def damaged_rows(rng, members, spellings, foreign):
    """Rows of a certificate changed, gone, twice, moved or of other runs."""
    rows = list(spellings)
    change = rng.randrange(10)
    if change > 6:
        at = rng.randint(0, len(rows))
        return rows[:at] + [signed_row(rng, members, rows[:at])] + rows[at:]
    at = rng.randrange(len(rows)) if rows else 0
    if change == 0 and rows:
        rows[at] = damaged_event(rng, rows[at])
    elif change == 1 and rows:
        del rows[at]
    elif change == 2 and rows:
        rows.insert(rng.randint(at, len(rows)), rows[at])
    elif change == 3 and rows:
        rows.insert(rng.randrange(len(rows)), rows.pop(at))
    elif change == 4 and foreign:
        rows.insert(rng.randint(0, len(rows)), rng.choice(foreign))
    elif change == 5 and foreign:
        rows += rng.sample(foreign, rng.randint(1, min(3, len(foreign))))
    else:
        rows = rows[:at]
    return rows


def damaged_entries(rng, entries):
    """Entries of a certificate changed, gone, more or moved."""
    entries = list(entries)
    if not entries or rng.random() < 0.15:
        return entries + [(0, 2, rng.getrandbits(8))]
    at = rng.randrange(len(entries))
    place, received, time = entries[at]
    change = rng.randrange(6)
    if change == 0:
        entries[at] = ((place + rng.choice([1, 2**31])) % 2**32, received, time)
    elif change == 1:
        entries[at] = (place, received ^ rng.choice([1, 2**31]), time)
    elif change == 2:
        entries[at] = (place, received, time ^ rng.choice([1, 2**63]))
    elif change == 3:
        del entries[at]
    elif change == 4:
        entries.insert(rng.randint(0, len(entries)), entries[at])
    else:
        del entries[at:]
    return entries


def damaged_certificate(rng, members, data, foreign):
    """A certificate with damage to its bytes, its rows or its entries."""
    spellings, entries = parts_of(data)
    change = rng.randrange(7)
    if change < 2:
        return any_damage(rng, data)
    if change == 2:
        ends = [4, 8 + sum(map(len, spellings))]
        return set_number(rng, data, rng.choice(ends))
    if change < 5:
        return certificate_of(damaged_rows(rng, members, spellings, foreign), entries)
    return certificate_of(spellings, damaged_entries(rng, entries))


def built_journal(rng, maker, own):
    """The file of a node that took rows and was marked by shares."""
    stored = Stored(b"", maker.members, maker.members.number(own))
    for node in rng.sample(list(maker.world.nodes.values()), 1):
        for row in node.rows[: rng.randint(0, len(node.rows))]:
            try:
                stored.put(row.spelling)
            except (Fault, Known):
                continue
            if rng.random() < 0.2:
                part = rng.randrange(of := rng.choice([1, 1, 2, 3]))
                length = rng.randint(0, len(stored.node.rows))
                if stored.node.remark(length, (part, of)):
                    stored.store()
    return bytes(stored.file)


def gates_of(data):
    """The places of the gates of a lawful journal."""
    gates = [HEAD]
    while data[gates[-1]]:
        at = gates[-1]
        gates.append(at + 4 + int.from_bytes(data[at + 2 : at + 4], "big"))
    return gates


def mark_record(rng, rows):
    """The bytes of a record of marks after its gate."""
    of = rng.choice([0, 1, 1, 2, 2**32 - 1])
    part = rng.choice([0, 0, 1, of])
    length = rng.choice([0, rows, rows, rows + 1, rng.randint(0, rows)])
    size = rng.choice([12, 12, 12, 11])
    body = b"".join(x.to_bytes(4, "big") for x in (length, part, of))[:size]
    return b"\3" + size.to_bytes(2, "big") + body


def own_record(rng, node):
    """A record of an own row on any earlier own row, as made or as taken."""
    own = [None] + [row.name for row in node.rows if row.creator == node.own]
    alien = [row.name for row in node.rows if row.creator != node.own]
    self_parent = rng.choice(own) if alien else None
    others = () if self_parent is None else (rng.choice(alien),)
    body = signed_event(node.members.secret(node.own), node.own, self_parent,
                        others, rng.getrandbits(8), b"")
    return rng.choice([b"\1", b"\2", b"\2"]) + len(body).to_bytes(2, "big") + body


def damaged_journal(rng, data, node, foreign):
    """A journal with a torn tail, a changed gate, head or record."""
    gates = gates_of(data)
    at = rng.choice(gates)
    change = rng.randrange(13)
    if change == 0:
        return data[: rng.randint(0, len(data))]
    if change == 1:
        return flip(rng, data)
    if change == 2:
        return data + rng.randbytes(rng.randint(1, 200))
    if change == 3:
        return data[:at] + bytes([rng.choice([0, 2, 255])]) + data[at + 1 :]
    if change == 4:
        return flip(rng, data[:10]) + data[10:]
    if change == 5:
        return data[:rng.randint(0, 12)]
    if change == 6:
        return data[: gates[-1]] + b"\1" + mark_record(rng, len(node.rows)) + b"\0"
    if change > 10:
        return data[: gates[-1]] + b"\1" + own_record(rng, node) + b"\0"
    if change in (7, 8) and foreign:
        body = rng.choice(foreign)
        kind = rng.choice([0, 1, 1, 2, 2, 4]).to_bytes(1, "big")
        record = kind + len(body).to_bytes(2, "big") + body
        return data[: gates[-1]] + b"\1" + record + rng.choice([b"\0", b"", b"\0xyz"])
    if change == 9:
        at += rng.randint(1, 3)
        return data[:at] + rng.randbytes(1) + data[at + 1 :]
    return bytes([rng.choice([0, 2, 255])]) + data[1:]


def damaged_message(rng, data):
    """A message with damage to its head, its items or its end."""
    change = rng.randrange(6)
    if change == 0:
        return cut(rng, data)
    if change == 1:
        return set_number(rng, data, 5)
    if change == 2:
        return flip(rng, data[:9]) + data[9:]
    if change == 3:
        return grow(rng, data)
    return any_damage(rng, data)


def hostile_message(rng, good, other):
    """What becomes of a message beside one of the other kind, and how."""
    how = rng.choice(["cut", "cut", "joined", "repeated", "damaged", "of the other kind"])
    one, two = sorted(rng.randint(0, len(good)) for _ in range(2))
    joined = rng.choice([good + good, good + other, other + good, good + other[:one]])
    return how, {"cut": good[:one], "joined": joined, "repeated": good[:two] + good[one:],
                 "damaged": damaged_message(rng, good), "of the other kind": other}[how]
