"""What damage and stops leave of bytes, by chance."""

from .reader import written


def changed(draw, data, heads=()):
    """The bytes with one changed, or cut, or with some more behind them or between; often at one of the heads."""
    at, way = draw.randrange(len(data)), draw.randrange(10)
    if heads and draw.random() < 0.5:
        at = min(draw.choice(heads) + draw.randrange(5), len(data) - 1)
    if way < 7:
        return written(data, at, bytes([data[at] ^ draw.choice((1, 2, 3, 128, draw.randint(1, 255)))]))
    if way == 7:
        return data[:at]
    more = draw.randbytes(draw.randint(1, 9))
    return data + more if way == 8 else data[:at] + more + data[at:]


def torn(draw, old, new):
    """What a write of the new bytes may have put down, over the old ones, when a stop came."""
    length, way = draw.randint(0, len(new)), draw.randrange(3)
    if way == 0:
        return new[:length]
    if way == 1:
        return draw.randbytes(length)
    old = old + draw.randbytes(len(new))
    return bytes(draw.choice((old[at], new[at], new[at], draw.randrange(256))) for at in range(length))
