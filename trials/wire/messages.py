"""Messages of gossip, from docs/FORMATS.md alone: written, read, and damaged."""

from keeping.events import first_event, number

HAVE, ROWS = 1, 2
MAGIC, COUNT_MOST, NAME = b"HGW1", 1_048_576, 48


class Wrong(Exception):
    """What is wrong with a message, in the words of the program."""


def have(names):
    return MAGIC + number(HAVE, 1) + number(len(names), 4) + b"".join(names)


def rows(events, last):
    return MAGIC + number(ROWS, 1) + number(len(events), 4) + b"".join(events) + (b"\1" + last if last else b"\0")


class Reader:
    """The bytes of a message, from the place on that was reached."""

    def __init__(self, data):
        self.data, self.at = data, 0

    def take(self, size):
        if len(self.data) < self.at + size:
            raise Wrong(f"ended {len(self.data)}")
        self.at += size
        return self.data[self.at - size:self.at]

    def byte(self):
        return self.take(1)[0]

    def head(self, kind):
        for at, byte in enumerate(MAGIC):
            if self.byte() != byte:
                raise Wrong(f"magic {at}")
        found = self.byte()
        if found != kind:
            raise Wrong(f"kind {found}")
        count = int.from_bytes(self.take(4), "big")
        if count > COUNT_MOST:
            raise Wrong(f"count {count}")
        return count

    def event(self, place):
        try:
            return self.take(first_event(self.data[self.at:]).length)
        except ValueError as fault:
            if str(fault).startswith("short"):
                raise Wrong(f"ended {len(self.data)}") from None
            raise Wrong(f"row {place} {fault}") from None

    def last(self):
        flag = self.byte()
        if flag > 1:
            raise Wrong(f"flag {flag}")
        return self.take(NAME) if flag else None

    def end(self):
        if self.at < len(self.data):
            raise Wrong(f"trailing {self.at}")


def read_have(data):
    """The names."""
    reader = Reader(data)
    names = [reader.take(NAME) for _ in range(reader.head(HAVE))]
    reader.end()
    return names


def read_rows(data):
    """The bytes of the events, and the name of the last own row, None where there is none."""
    reader = Reader(data)
    events = [reader.event(place) for place in range(reader.head(ROWS))]
    last = reader.last()
    reader.end()
    return events, last


def damaged(draw, data):
    """The message with a byte changed, cut, lengthened, or with a part of it twice."""
    way = draw.randrange(5)
    if way == 0 or not data:
        return data + draw.randbytes(draw.randint(1, 60))
    at = draw.randrange(min(len(data), draw.choice((9, len(data)))))
    if way == 1:
        return data[:at]
    if way == 2:
        return data[:at] + data[at // 2:]
    return data[:at] + bytes([data[at] ^ draw.choice((1, 2, 3, 0x80, draw.randint(1, 255)))]) + data[at + 1:]
