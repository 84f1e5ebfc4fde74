"""Made member files, and member files with something wrong in them."""

import re

LETTERS = "ABCDEFG"


def name_at(place):
    """The name of a member by its place."""
    return LETTERS[place] if place < len(LETTERS) else f"M{place}"


def member_text(name, secret, **keys):
    """The table of one member."""
    lines = ["[[member]]", f'name = "{name}"', f'secret = "{secret}"']
    for key, value in keys.items():
        lines.append(f"{key} = {str(value).lower()}")
    return "\n".join(lines) + "\n"


def made_stakes(rng, count):
    """Stakes of one of several shapes."""
    shape = rng.choice(["one", "one", "few", "wide", "greatest", "great"])
    if shape == "one":
        return [1] * count
    if shape == "few":
        return [rng.randint(1, 5) for _ in range(count)]
    if shape == "wide":
        return [rng.randint(1, 2**32 - 1) for _ in range(count)]
    if shape == "greatest":
        return [2**32 - 1 - rng.randint(0, 1) for _ in range(count)]
    stakes = [rng.randint(1, 3) for _ in range(count)]
    stakes[rng.randrange(count)] = rng.choice([count, 2 * count, 4 * count])
    return stakes


def member_file(rng, count=None, few_nodes=False, even=False):
    """The bytes of a lawful member file; `even` asks for equal stakes."""
    count = count or rng.choice([2, 3, 4, 4, 4, 5, 5, 6, 7])
    texts = []
    if rng.random() < 0.8:
        texts.append(f"coin = {rng.choice([3, 3, 3, 4, 5, 10, 100])}\n")
    stakes = [rng.choice([1, 2])] * count if even else made_stakes(rng, count)
    for place in range(count):
        keys = {}
        if stakes[place] != 1 or rng.random() < 0.2:
            keys["stake"] = stakes[place]
        if rng.random() < 0.7:
            keys["balance"] = rng.choice([0, 1, 10, 100, 1000,
                                          2**60 if count < 8 else 2**50])
        if few_nodes and place > 1 and rng.random() < 0.3:
            keys["node"] = False
        secret = rng.randbytes(rng.choice([1, 4, 16, 64, 127, 128])).hex()
        texts.append(member_text(name_at(place), secret, **keys))
    return "".join(texts).encode()


def damaged_members(rng, data):
    """A member file with one thing in it made otherwise."""
    text = data.decode()
    changes = [
        ("coin = ", "coin = 1"), ("coin = ", "coin = -"), ("coin = ", "con = "),
        ('name = "A"', 'name = "B"'), ('name = "B"', 'name = "B-"'),
        ('name = "B"', "name = 7"), ('name = "A"', 'nam = "A"'),
        ('name = "A"', 'name = ""'), ('name = "A"', 'name = "A2345678901234567"'),
        ('secret = "', 'secret = "0'), ('secret = "', 'secret = "x'),
        ("[[member]]", "[member]"), ("[[member]]", "[[members]]"),
        ("balance = ", "balance = -"), ("balance = ", "balance = 92233720368"),
        ("node = false", "node = 0"), ("stake = ", "stake = 0 #"),
        ("stake = ", "stake = 4294967296 #"), ("stake = ", "stake = -"),
        ("stake = ", "stake = 1."), ("[[member]]\n", "[[member]]\nstake = true\n"),
        ("[[member]]\n", "[[member]]\nbalance = 4611686018427387904\n"),
        ("[[member]]\n", "[[member]]\nnode = false\n"), ("\n", "\r\n"), ("\n", ""),
        ("[[member]]\n", "[[member]]\nother = [1, {a = 'b'}]\n")]
    old, new = rng.choice(changes)
    count = rng.choice([-1, 1])
    return text.replace(old, new, count).encode()


def other_file(rng, data):
    """Another member file, or this one with one lawful thing changed."""
    text = data.decode()
    tables = text.split("[[member]]\n")
    staked = re.sub("stake = .*\n", "", text, count=rng.choice([0, 1]))
    if "stake" not in text:
        staked = text.replace("]]\n", f"]]\nstake = {rng.choice([2, 9, 2**32 - 1])}\n", 1)
    return rng.choice([
        text.replace('secret = "', 'secret = "00', rng.choice([1, -1])), staked,
        re.sub("coin = .*\n", "", text) if "coin" in text else "coin = 3\n" + text,
        "[[member]]\n".join(tables[:1] + tables[2:] + tables[1:2]),
        member_file(rng).decode()]).encode()
