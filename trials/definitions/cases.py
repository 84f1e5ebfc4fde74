"""Made cases of each kind.

A case is a generator.  It yields the words of a command, after it has put the
files that the command reads into the store, and it is sent what the command
wrote.  All that it does depends on its random numbers alone.
"""

import re

from damage import any_damage, cut, damaged_script, flip
from damaged_files import (built_journal, certificate_of, damaged_certificate,
                           damaged_event, damaged_journal, damaged_message)
from event import Fault, decode_first
from free_rows import rows_case
from journal import Stored
from member_files import damaged_members, member_file
from messages import have_message, rows_message
from scripts import ScriptMaker
from text_cases import line_case, value_case


def words_of(command, **options):
    """The words of a command with options."""
    return [command] + [word for key, value in options.items()
                        for word in ("--" + key, str(value))]


def played(rng, files, faces=False, **limits):
    """A maker that has filled a script, with both files in the store."""
    if faces:
        files["members"] = member_file(rng, rng.choice([5, 5, 6, 7, 7]), even=True)
    else:
        files["members"] = member_file(rng, few_nodes=rng.random() < 0.2)
    maker = ScriptMaker(rng, files["members"], faces=faces, **limits).fill()
    files["script"] = maker.text()
    return maker


def run_words(command="run", **options):
    """The words of a command on the two usual files."""
    return words_of(command, members="members", script="script", **options)


def faces_case(rng, files):
    """Equal stakes and a member that shows two faces; scripts and proofs."""
    maker = played(rng, files, faces=True, most_rows=rng.randint(40, 100))
    yield run_words()
    own = rng.choice(maker.nodes)
    files["proof"] = yield run_words("prove", own=own)
    yield words_of("check", members="members", proof="proof")


def run_case(rng, files):
    """A script, at times with workers as well."""
    maker = played(rng, files)
    yield run_words()
    if rng.random() < 0.2:
        workers = rng.choice([1, 2, 3, 16])
        yield run_words(workers=workers)
        words = ("freeze", "publish", "kept")
        files["script"] = "".join(
            line + "\n" for line in maker.lines
            if not line.startswith(words)).encode()
        yield run_words(workers=workers)
        yield run_words()


def many_case(rng, files):
    """More members than in the other cases."""
    count = rng.choice([8, 10, 13, 16, 21])
    files["members"] = member_file(rng, count)
    maker = ScriptMaker(rng, files["members"], most_rows=count + rng.randint(9, 99))
    files["script"] = maker.fill(300).text()
    yield run_words()
    own = rng.choice(maker.nodes)
    files["proof"] = yield run_words("prove", own=own)
    yield words_of("check", members="members", proof="proof")


def script_case(rng, files):
    """A script in which some lines are wrong."""
    played(rng, files, most_rows=rng.randint(2, 30))
    for _ in range(rng.choice([1, 1, 2])):
        files["script"] = damaged_script(rng, files["script"])
        yield run_words(**rng.choice([{}, {}, {"workers": 1}]))


def members_case(rng, files):
    """A member file with something wrong in it."""
    data = member_file(rng, few_nodes=True)
    files["script"] = b"create A 1\n"
    files["members"] = damaged_members(rng, data)
    yield run_words()
    files["members"] = rng.choice([flip, cut, damaged_members])(rng, data)
    yield run_words()


def make_case(rng, files):
    """Input that is made from a number."""
    options = {"members": rng.randint(2, 7), "lines": rng.randint(0, 110),
               "seed": rng.choice([0, 1, 7, rng.getrandbits(64)])}
    yield words_of("make", **options)
    if rng.random() < 0.3:
        yield words_of("make", **options, workers=rng.randint(0, 4))


def forged_rows(maker):
    """The events that the labels of a script stand for."""
    rows = []
    for data in maker.world.labels.values():
        try:
            row, length = decode_first(data)
        except Fault:
            continue
        if length == len(data):
            rows.append(row.spelling)
    return rows


def proof_case(rng, files):
    """Certificates: good ones, damaged ones and those of other members."""
    maker = played(rng, files)
    foreign = forged_rows(maker)
    for own in rng.sample(maker.nodes, min(2, len(maker.nodes))):
        good = yield run_words("prove", own=own)
        if not good:
            return
        files["proof"] = good
        yield words_of("check", members="members", proof="proof")
        node = maker.node(own)
        foreign += [row.spelling for row in node.rows[-3:]]
        length = rng.randint(0, len(node.rows))
        files["proof"] = certificate_of(
            [row.spelling for row in node.rows[:length]],
            node.graph.own_order(length))
        yield words_of("check", members="members", proof="proof")
        for _ in range(4):
            files["proof"] = damaged_certificate(rng, maker.members, good, foreign)
            yield words_of("check", members="members", proof="proof")
    files["proof"] = good
    text = files["members"].decode()
    files["members"] = rng.choice([
        text.replace('secret = "', 'secret = "00'), "coin = 3\n" + text,
        text.replace("coin = 3", "coin = 9"), text + text.replace("coin", "c"),
        text.replace("stake = ", "stake = 9"), member_file(rng).decode()]).encode()
    yield words_of("check", members="members", proof="proof")


def made_events(rng, maker, foreign):
    """The bytes of an event file, at times not good to its end."""
    rows = []
    for node in rng.sample(list(maker.world.nodes.values()), 1):
        start = rng.choice([0, 0, rng.randint(0, len(node.rows))])
        rows = [row.spelling for row in node.rows[start:]]
    rows = rows[: rng.randint(0, len(rows))]
    if foreign and rng.random() < 0.4:
        rows.insert(rng.randint(0, len(rows)), rng.choice(foreign))
    if rng.random() < 0.2:
        rng.shuffle(rows)
    if rows and rng.random() < 0.2:
        rows.append(rng.choice(rows))
    data = b"".join(rows)
    return any_damage(rng, data) if rng.random() < 0.15 else data


def journal_case(rng, files):
    """A node that is kept, with damage to its file between the openings."""
    maker = played(rng, files, most_rows=rng.randint(4, 60))
    own = rng.choice(maker.nodes)
    foreign = forged_rows(maker)
    files["disk"] = b""
    if rng.random() < 0.4:
        files["disk"] = built_journal(rng, maker, own)
    for _ in range(rng.randint(2, 6)):
        good = files["disk"]
        files["events"] = made_events(rng, maker, foreign)
        if len(good) >= 10 and rng.random() < 0.5:
            node = Stored(good, maker.members, maker.members.number(own)).node
            files["disk"] = damaged_journal(rng, good, node, foreign)
        elif len(good) < 2:
            files["disk"] = rng.choice([b"", b"\0", b"\1", b"\0HGJ1", good])
        options = {"time": rng.getrandbits(8)} if rng.random() < 0.7 else {}
        name = own if rng.random() < 0.95 else rng.choice("ABCDEFGZ")
        out = yield words_of("keep", members="members", events="events",
                             own=name, disk="disk", **options)
        if not out or name != own:
            files["disk"] = good


def made_rows(rng, maker, foreign):
    """A message of rows that no node would have sent."""
    node = rng.choice(list(maker.world.nodes.values()))
    rows = [row.spelling for row in node.rows]
    rows = rows[rng.randint(0, len(rows)) :]
    rows += rng.sample(foreign, min(len(foreign), rng.randint(0, 5)))
    if rows and rng.random() < 0.5:
        at = rng.randrange(len(rows))
        rows[at] = damaged_event(rng, rows[at])
    if rng.random() < 0.3:
        rng.shuffle(rows)
    return rows_message(rows, rng.choice([None, rng.randbytes(48)]))


def wire_case(rng, files):
    """Messages between two nodes: good, damaged, and of other runs."""
    maker = played(rng, files)
    foreign = forged_rows(maker)
    asker, peer = rng.choice(maker.nodes), rng.choice(maker.nodes)
    have = yield run_words("ask", own=asker)
    files["message"] = have
    rows = yield run_words("serve", own=peer, have="message")
    files["message"] = rows
    yield run_words("take", own=asker, rows="message")
    for _ in range(3):
        files["message"] = damaged_message(rng, have)
        yield run_words("serve", own=peer, have="message")
        files["message"] = damaged_message(rng, rows)
        yield run_words("take", own=asker, rows="message")
    names = [row.name for row in rng.choice(list(maker.world.nodes.values())).rows]
    names = rng.sample(names, rng.randint(0, len(names))) + [rng.randbytes(48)]
    files["message"] = have_message(names)
    yield run_words("serve", own=peer, have="message")
    files["message"] = made_rows(rng, maker, foreign)
    yield run_words("take", own=asker, rows="message")
    files["message"] = rng.choice([have, rows])
    yield run_words(*rng.choice([("take",), ("serve",)]), own=asker,
                    **rng.choice([{"rows": "message"}, {"have": "message"}]))


def storm_case(rng, files):
    """Nodes in threads of their own, for some turns."""
    files["members"] = member_file(rng, few_nodes=rng.random() < 0.5)
    if rng.random() < 0.3:
        files["members"] = re.sub(b"stake = [0-9]+", b"node = false",
                                  files["members"])
    options = {"room": rng.choice([1, 2, 64, 65536, 0, 65537])}
    yield words_of("storm", members="members", turns=rng.choice([0, 1, 2, 5, 20]),
                   seed=rng.getrandbits(64), **rng.choice([{}, {}, options]))


def words_case(rng, files):
    """Words that are not accepted, names that are no node's, lost files."""
    played(rng, files, most_rows=4)
    files.update(message=b"", proof=b"", events=b"", disk=b"")
    name = rng.choice(["A", "A", "B", "Z", "", "a"])
    good = [run_words(), run_words(workers=rng.choice([0, 1, 16, 17, "x"])),
            words_of("make", members=rng.choice([1, 2, 128, 129]), lines=1, seed=1),
            words_of("keep", members="members", events="events", own=name,
                     disk="disk", time=rng.choice([0, 2**64 - 1, 2**64])),
            run_words("prove", own=name), run_words("ask", own=name),
            words_of("check", members="members", proof="proof"),
            run_words("serve", own=name, have="message"),
            run_words("take", own=name, rows="message")]
    for words in good:
        change = rng.randrange(6)
        at = rng.randrange(len(words))
        if change == 0:
            words = words[:at] + words[at + 1 :]
        elif change == 1:
            words = words + words[1:3]
        elif change == 2 and not words[at].startswith("-"):
            words[at] = "none"
        elif change == 3:
            words = words[:1] + [words[at]] + words[1:]
        yield words


KINDS = {"run": run_case, "faces": faces_case, "many": many_case, "rows": rows_case,
         "script": script_case, "members": members_case, "make": make_case,
         "proof": proof_case, "journal": journal_case,
         "wire": wire_case, "storm": storm_case, "words": words_case,
         "line": line_case, "value": value_case}
