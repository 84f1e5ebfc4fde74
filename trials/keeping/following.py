"""What a run of `hashgraph keep` has to come to, as the reader says."""

from .events import end_to_end, number, spelled
from .reader import MADE, MARKS, TAKEN, read, writes, written

ONE_SHARE = number(0, 4) + number(1, 4)


class Differs(Exception):
    """A sentence in which the program does not agree with the reader."""


class Undecided(Exception):
    """The program refuses a changed journal at marks, and the reader cannot say whether they mark anything."""


def need(holds, sentence):
    if not holds:
        raise Differs(sentence)


def next_event(rows, time):
    """The bytes of the event that the node makes at this time; None where it took no other-parent for it."""
    own, others = rows.last.get(rows.own), [name for name, creator in rows.creators.items() if creator != rows.own]
    if own and not others:
        return None
    return spelled(rows.members, rows.own, (own, others[-1]) if own else (), time)


def refusal(journal):
    return b"hashgraph: journal: foreign\n" if journal.word == "foreign" else b"hashgraph: journal: broken %d\n" % journal.at


def follow(members, own, before, events, time, outcome, after, changed=False):
    """The journal before, as the reader reads it, the records that came, and the event made, if one was; Differs where a thing
    is otherwise. `before` and `after` are the bytes of the journal's file, None where there is none, and `events` those of the
    event file; `changed` says that the file may be any, and not only one that runs and stops left."""
    journal = read(before or b"", members, own)
    rows = journal.rows
    try:
        given = end_to_end(events)
    except ValueError as fault:
        need(outcome == (4, b"", f"hashgraph: event at {fault}\n".encode()), f"{outcome} where no event is at {fault}")
        need(after == before, "a faulty event file changed the journal")
        return journal, [], None
    need(changed or journal.word in ("anew", "read"), f"runs and stops left a file that is {journal.word} {journal.at}")
    if outcome.status == 8:
        need(outcome.out == b"" and after == before, "a refused journal was changed, or more than a fault was told")
        places = [record.at for record in journal.records if record.kind == MARKS]
        if changed and outcome.err in [b"hashgraph: journal: broken %d\n" % at for at in places]:
            raise Undecided
    if journal.word in ("foreign", "broken"):
        need(outcome.status == 8 and outcome.err == refusal(journal), f"{outcome} where it is {journal.word} {journal.at}")
        return journal, [], None
    need(outcome.status == 0 and not outcome.err, f"{outcome} where the file is {journal.word}, {len(rows)} rows")
    lines = outcome.out.split(b"\n")
    need(len(lines) > 4, f"{outcome}")
    need(lines[0] == b"opened %d" % len(rows), f"{lines[0]} where the file has {len(rows)} rows")
    answers = [rows.answer(data) for data in given]
    counts = b"accepted %d known %d refused %d" % tuple(answers.count(word) for word in ("accepted", "known", "refused"))
    need(lines[1] == counts, f"{lines[1]} where the reader has {counts}")
    came = [(TAKEN, data) for data, answer in zip(given, answers) if answer == "accepted"]
    made = None if time is None else next_event(rows, time)
    if time is not None:
        told = f"made {len(rows)} {made.hex()}" if made else "made none peer-bare"
        need(lines.pop(2) == told.encode(), f"it does not tell {told}")
    if made:
        need(rows.answer(made, True) == "accepted", f"no node accepts {made.hex()}")
        came.append((MADE, made))
    told = b"node %b events %d forkers %d round " % (members[own].name.encode(), len(rows), len(rows.forkers))
    need(lines[2].startswith(told), f"{lines[2]} where the reader has {told}")
    now = read(after, members, own)
    if now.records and now.records[-1].kind == MARKS and len(now.records) > len(journal.records) + len(came):
        came.append((MARKS, number(len(rows), 4) + ONE_SHARE))
    file = before or b""
    for at, content, _ in writes(journal, file, came):
        file = written(file, at, content)
    need(file == after, "the file is not the one before with the writes that FORMATS tells")
    return journal, came, made
