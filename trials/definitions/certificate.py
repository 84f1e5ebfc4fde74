"""Certificates of an order: making one and checking one."""

from event import Fault, decode_first
from graph import Graph
from node import Known, refuse_row

MAGIC = b"HGP1"
MOST_ROWS = 1 << 20


def word(value, size=4):
    """A number in big-endian bytes."""
    return value.to_bytes(size, "big")


def certificate(node):
    """The least first rows that have the whole order, and this order."""
    whole = node.graph.own_order(len(node.rows))
    length = max((place + 1 for place, _, _ in whole), default=0)
    while node.graph.own_order(length) != whole:
        length += 1
    spellings = b"".join(row.spelling for row in node.rows[:length])
    entries = b"".join(word(place) + word(round_) + word(time, 8)
                       for place, round_, time in whole)
    return MAGIC + word(length) + spellings + word(len(whole)) + entries


def read_field(data, at, size):
    """The bytes of a field that must be whole."""
    if at + size > len(data):
        raise Fault(f"form {at}")
    return data[at : at + size]


def read_rows(data, count, at):
    """The rows that stand at a place, and the place after them."""
    rows = []
    for _ in range(count):
        try:
            row, length = decode_first(data[at:])
        except Fault:
            raise Fault(f"form {at}") from None
        rows.append(row)
        at += length
    return rows, at


def read_form(data):
    """The rows and the entries of a certificate; raises `Fault`."""
    if read_field(data, 0, 4) != MAGIC:
        raise Fault("form 0")
    count = int.from_bytes(read_field(data, 4, 4), "big")
    if count > MOST_ROWS:
        raise Fault("form 4")
    rows, at = read_rows(data, count, 8)
    count = int.from_bytes(read_field(data, at, 4), "big")
    at += 4
    entries = []
    for _ in range(count):
        entry = read_field(data, at, 16)
        entries.append((int.from_bytes(entry[:4], "big"),
                        int.from_bytes(entry[4:8], "big"),
                        int.from_bytes(entry[8:], "big")))
        at += 16
    if at < len(data):
        raise Fault(f"form {at}")
    return rows, entries


def graph_of(members, rows):
    """The graph of the rows; raises `Fault` at the first one refused."""
    graph = Graph(members.stakes, members.coin)
    for place, row in enumerate(rows):
        try:
            refuse_row(graph, members, row)
        except Known:
            raise Fault(f"repeat {place}") from None
        except Fault as fault:
            raise Fault(f"row {place} {fault.text}") from None
        graph.add(row)
    return graph


def check(members, data):
    """The rows and the order that a certificate shows; raises `Fault`."""
    rows, entries = read_form(data)
    order = graph_of(members, rows).own_order(len(rows))
    for place in range(max(len(order), len(entries))):
        if entries[place : place + 1] != order[place : place + 1]:
            raise Fault(f"order {place}")
    return rows, order
