"""Cases of one line or one value: each word replaced by a word of a pool."""

from member_files import member_text

BASE = """create A 1
create B 2
name a A
name b B
raw r 4847453100
forge f C - - 5
"""

GOOD = ["create C 3", "create C 3 hex:00", "sync A B 4", "sync A B 4 pay:A=1",
        "pull A B", "pull D A", "join A b 5", "join A b,b,b,b 5 pay:B=2,#1=3",
        "name x A", "name x C", "forge x A a b 6", "forge x A - - 6 hex:0102",
        "forge x D a b,f,r,a 7 pay:D=1", "raw x 48", "alter x a 7 1",
        "cut x a 80", "give A b", "give B r", "freeze A 0", "publish A 15",
        "kept A", "show B", "names A"]

WORDS = ["", "A", "B", "C", "D", "Z", "a", "b", "f", "r", "x", "y", "l0", "-", "--",
         "a,b", "a,", ",a", "a,,b", "a,b,f,r", "a,b,f,r,a", "-,a", "a,-", "-,-", "a,a",
         "a,zz", "0", "00", "1", "15", "16", "255", "256", "-1", "+1", "1.0", "0x1",
         "18446744073709551615", "18446744073709551616", "00000000000000000001",
         "000000000000000000001", "99999999999999999999", "\u0661", "hex:", "hex:0",
         "hex:00", "hex:aB", "hex:zz", "HEX:00", "hex:" + "00" * 1024,
         "hex:" + "00" * 1025, "pay:", "pay:A", "pay:A=", "pay:=1", "pay:=", "pay:A=1",
         "pay:A=1,", "pay:,A=1", "pay:A=1,,B=1", "pay:A=1,B=2", "pay:#1=1",
         "pay:#65535=1", "pay:#65536=1", "pay:#=1", "pay:#x=1", "pay:#01=1", "pay:Z=1",
         "pay:A=x", "pay:Z=x", "pay:A=1=2", "pay:A==1", "pay:A=-1", "pay:1=1",
         "pay:A-B=1", "pay:#1=18446744073709551615", "pay:#1=18446744073709551616",
         "pay:" + ",".join(["A=0"] * 64), "pay:" + ",".join(["A=0"] * 65),
         "pay:Z=1,A", "pay:A=x,Z=1", "pay:a=1", "pay:D=1", "00" * 4096, "00" * 4097,
         "abc", "ab", "AB", "zz", "1a", "a_b", "_a", "a" * 16, "a" * 17, "\u00e9",
         "#", "#a", "create", "show", "a\r", "\r", "a\x0bb", "a\u00a0b", "a\x00"]

VALUES = ["0", "1", "2", "3", "10", "100", "101", "-1", "-0", "+5", "1_000", "0x10",
          "0o7", "0b11", "007", "1.0", "1e2", "inf", "nan", "true", "false", '""',
          '"A"', '"B"', '"a b"', '"_A"', '"A_1"', '"1A"', '"\u00e9"', "'A'", '"\\u0041"',
          '"A2345678901234567"', '"A234567890123456"', '"0b"', '"0B"', '"0"', '"zz"',
          '"' + "00" * 128 + '"', '"' + "00" * 129 + '"', "[]", "[1]", "{}", "{a=1}",
          "4294967295", "4294967296", "9223372036854775807", "9223372036854775808",
          "-9223372036854775808", "-9223372036854775809", "1979-05-27",
          "1979-05-27T07:32:00Z", "07:32:00", '"""A"""', "", "A", "'''\nC'''",
          "99999999999999999999999999999999999999999"]


def line_case(rng, files):
    """A short script of which one line has one word of the pool."""
    files["members"] = ("".join(
        member_text(name, "0b") for name in "ABC")
        + member_text("D", "0c", node=False)).encode()
    words = rng.choice(GOOD).split(" ")
    at = rng.randrange(len(words) + 1)
    change = rng.randrange(8)
    if change == 0 and at < len(words):
        del words[at]
    elif change == 1 or at == len(words):
        words.insert(at, rng.choice(WORDS))
    else:
        words[at] = rng.choice(WORDS)
    line = rng.choice([" ", " ", "\t", " \t "]).join(words)
    line = rng.choice(["", "", " "]) + line + rng.choice(["", "\n", "\r\n", " \n", "\r"])
    files["script"] = (BASE + line).encode()
    yield ["run", "--members", "members", "--script", "script",
           "--workers", rng.choice(["0", "0", "0", "1"])]


def value_case(rng, files):
    """A member file of which one or two values are of the pool."""
    tables = [{"name": f'"{name}"', "secret": '"0b"', "balance": "5", "node": "true",
               "stake": "2"} for name in "ABC"]
    head = {"coin": "10"}
    for _ in range(rng.choice([1, 1, 1, 2])):
        if rng.random() < 0.2:
            head["coin"] = rng.choice(VALUES)
        else:
            table = rng.choice(tables)
            table[rng.choice(list(table))] = rng.choice(VALUES)
    if rng.random() < 0.3:
        table = rng.choice(tables)
        del table[rng.choice(list(table))]
    text = "".join(f"{key} = {value}\n" for key, value in head.items())
    for table in tables:
        text += "[[member]]\n" + "".join(
            f"{key} = {value}\n" for key, value in table.items())
    if rng.random() < 0.1:
        text = head_only(rng, text)
    files["members"] = text.encode()
    files["script"] = b""
    yield ["run", "--members", "members", "--script", "script"]


def head_only(rng, text):
    """A file whose members are none, one, too many or no tables."""
    start = text.index("[[member]]")
    table = '[[member]]\nname = "M{}"\nsecret = "0b"\n'
    many = "".join(table.format(at) for at in range(rng.choice([127, 128, 129])))
    return text[:start] + rng.choice([
        "", "member = 3\n", "member = []\n", "member = [1, 2]\n", "member = {}\n",
        "[member]\na = 1\n", table.format(1), many, 'member = ["A", "B", "C"]\n',
        'member = [{name = "A", secret = "0b"}, {name = "B", secret = "0c"}]\n'])
