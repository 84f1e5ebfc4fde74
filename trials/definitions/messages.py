"""The messages of gossip over streams of bytes."""

from event import Fault, decode_first

MAGIC = b"HGW1"
HAVE, ROWS = 1, 2
MOST = 1 << 20


def have_message(names):
    """The message that tells which names somebody holds."""
    return MAGIC + bytes([HAVE]) + len(names).to_bytes(4, "big") + b"".join(names)


def rows_message(events, last):
    """The message of events, with the name of the sender's last own one."""
    tail = b"\0" if last is None else b"\1" + last
    return (MAGIC + bytes([ROWS]) + len(events).to_bytes(4, "big")
            + b"".join(events) + tail)


class Stream:
    """Fields from the front of a message; it may end too early."""

    def __init__(self, data):
        self.data = data
        self.at = 0

    def take(self, size):
        """The next `size` bytes."""
        if self.at + size > len(self.data):
            raise Fault(f"ended {len(self.data)}")
        self.at += size
        return self.data[self.at - size : self.at]

    def row(self, number):
        """The next event's bytes."""
        try:
            _, length = decode_first(self.data[self.at :])
        except Fault as fault:
            if fault.text.startswith("short"):
                raise Fault(f"ended {len(self.data)}") from None
            raise Fault(f"row {number} {fault.text}") from None
        return self.take(length)


def read_head(stream, wanted):
    """The number of items of a message of the wanted kind."""
    for place, byte in enumerate(MAGIC):
        if stream.take(1)[0] != byte:
            raise Fault(f"magic {place}")
    kind = stream.take(1)[0]
    if kind != wanted:
        raise Fault(f"kind {kind}")
    count = int.from_bytes(stream.take(4), "big")
    if count > MOST:
        raise Fault(f"count {count}")
    return count


def first_message(data, wanted):
    """The names, or the events, of the first message, and its length."""
    stream = Stream(data)
    count = read_head(stream, wanted)
    if wanted == HAVE:
        items = [stream.take(48) for _ in range(count)]
    else:
        items = [stream.row(number) for number in range(count)]
        flag = stream.take(1)[0]
        if flag > 1:
            raise Fault(f"flag {flag}")
        if flag == 1:
            stream.take(48)
    return items, stream.at


def read_message(data, wanted):
    """The names, or the events, of the one message that the bytes are."""
    items, length = first_message(data, wanted)
    if length < len(data):
        raise Fault(f"trailing {length}")
    return items
