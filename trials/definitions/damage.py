"""Small damage to bytes, and to the words of a script."""


def flip(rng, data):
    """One byte with some of its bits changed."""
    if not data:
        return data
    at = rng.randrange(len(data))
    mask = rng.choice([1, 2, 4, 128, rng.randint(1, 255)])
    return data[:at] + bytes([data[at] ^ mask]) + data[at + 1 :]


def cut(rng, data):
    """The beginning of the bytes."""
    return data[: rng.randint(0, len(data))]


def lose(rng, data):
    """The bytes without some of their middle."""
    at = rng.randint(0, len(data))
    return data[:at] + data[at + rng.choice([1, 1, 4, 48, 64]) :]


def grow(rng, data):
    """The bytes with some more behind them."""
    return data + rng.choice([b"\0", b"\1", rng.randbytes(rng.randint(1, 90))])


def set_number(rng, data, at, size=4):
    """The bytes with a number in them made another one."""
    if at + size > len(data):
        return flip(rng, data)
    old = int.from_bytes(data[at : at + size], "big")
    greatest = 256**size - 1
    new = rng.choice([0, 1, old + 1, max(old - 1, 0), 1 << 20, (1 << 20) + 1,
                      greatest, rng.randint(0, greatest)]) & greatest
    return data[:at] + new.to_bytes(size, "big") + data[at + size :]


def any_damage(rng, data):
    """Damage of one of the kinds above."""
    return rng.choice([flip, flip, flip, cut, lose, grow])(rng, data)


def damaged_line(rng, line):
    """A line of a script with something wrong in one of its words."""
    words = line.split()
    if not words:
        return rng.choice(["x", "create", "\u00e9", "create A 1\r\r"])
    at = rng.randrange(len(words))
    word = words[at]
    change = rng.randrange(9)
    if change == 0:
        return " ".join(words[:at] + words[at + 1 :])
    if change == 1:
        words.insert(at, rng.choice(["A", "B", "7", "-", "l0", "pay:A=1"]))
    elif change == 2:
        words[at] = word + rng.choice(["x", "0", "\r", "-", "=", ",", ",l0", "Z"])
    elif change == 3:
        words[at] = rng.choice(["A", "B", "Z", "-", "l0", "l1", "999", "a b"])
    elif change == 4:
        words[at] = rng.choice(["18446744073709551615", "18446744073709551616",
                                "000000000000000000001", "-1", "+1", "1e3",
                                "00000000000000000001", "256", "255", "16"])
    elif change == 5:
        words[at] = rng.choice(["hex:", "hex:0", "hex:zz", "pay:", "pay:A", "pay:A=",
                                "pay:=1", "pay:A=1,", "pay:#1=1", "pay:#65536=1",
                                "pay:Z=1", "pay:A=x", "pay:Z=x", "pay:#=1",
                                "hex:" + "00" * 1024, "hex:" + "00" * 1025,
                                "pay:" + ",".join(["A=0"] * 65), "pay:A=1=2"])
    elif change == 6:
        words[0] = rng.choice(["create", "sync", "join", "give", "kept", "give",
                               "freeze", "publish", "forge", "alter", "show"])
    elif change == 7:
        words[at] = word.swapcase()
    else:
        words.append(rng.choice(["pay:A=1", "hex:00", "7", "#"]))
    return rng.choice([" ", "\t", "  "]).join(words)


def damaged_script(rng, data):
    """A script with one line wrong, gone, twice or elsewhere."""
    lines = data.decode(errors="surrogateescape").split("\n")
    at = rng.randrange(len(lines))
    wordy = [place for place, line in enumerate(lines)
             if line.startswith(("forge", "alter", "cut", "join", "raw"))]
    if wordy and rng.random() < 0.4:
        at = rng.choice(wordy)
    change = rng.randrange(8)
    if change == 0:
        del lines[at]
    elif change == 1:
        lines.insert(at, lines[at])
    elif change == 2:
        lines.insert(rng.randrange(len(lines)), lines.pop(at))
    else:
        lines[at] = damaged_line(rng, lines[at])
    damaged = "\n".join(lines).encode(errors="surrogateescape")
    if rng.random() < 0.05:
        place = rng.randint(0, len(damaged))
        return damaged[:place] + b"\xff" + damaged[place:]
    return damaged
