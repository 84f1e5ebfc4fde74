"""The commands of the program, worked out plainly.

Run it as `python3 program.py COMMAND ...` with the program's own words.
"""

import re
import sys

import certificate
import messages
import storm
from event import Fault, events_of
from gossip import put_all
from journal import Stored
from ledger import block
from made import made_input, summary
from members import read_members
from play import World
from script import LONGEST_FILE, read_script

NUMBER = re.compile(r"\+?[0-9]+\Z")
FORMS = {
    "run": "--members FILE --script FILE [--workers K]",
    "make": "--members N --lines L --seed S [--workers K]",
    "keep": "--members FILE --events FILE --own NAME --disk FILE [--time T]",
    "prove": "--members FILE --script FILE --own NAME",
    "check": "--members FILE --proof FILE",
    "storm": "--members FILE --turns T --seed S [--room R]",
    "ask": "--members FILE --script FILE --own NAME",
    "serve": "--members FILE --script FILE --own NAME --have FILE",
    "take": "--members FILE --script FILE --own NAME --rows FILE",
}
USAGE = "usage: " + " or ".join(f"{word} {form}" for word, form in FORMS.items())
RANGES = {"K": (0, 16), "N": (2, 128), "L": (0, 1_000_000),
          "S": (0, 2**64 - 1), "R": (1, 65536)}
LONGEST_PROOF = 1 << 31


class Stop(Exception):
    """The end of a run with a status above 0 and its line."""

    def __init__(self, status, text):
        super().__init__(text)
        self.status = status
        self.text = text


def range_of(command, value):
    """The range of a number's word."""
    if value == "T":
        return (0, 10_000) if command == "storm" else (0, 2**64 - 1)
    return RANGES[value]


def read_value(command, value, word):
    """The value of an option's word."""
    if value in ("FILE", "NAME"):
        return word
    least, most = range_of(command, value)
    if not NUMBER.match(word) or not least <= int(word) <= most:
        raise Stop(2, USAGE)
    return int(word)


def read_words(words):
    """The command and its options; raises `Stop`."""
    if not words or words[0] not in FORMS:
        raise Stop(2, USAGE)
    command, form = words[0], FORMS[words[0]]
    values = dict(re.findall(r"--(\w+) (\w+)", form))
    needed = set(re.findall(r"(?<!\[)--(\w+)", form))
    rest, options = list(words[1:]), {}
    while rest:
        name, equals, word = rest.pop(0).partition("=")
        name = name.removeprefix("--") if name.startswith("--") else ""
        if name not in values or name in options or not (equals or rest):
            raise Stop(2, USAGE)
        if not equals:
            word = rest.pop(0)
            if word.startswith("-") and word != "-":
                raise Stop(2, USAGE)
        options[name] = read_value(command, values[name], word)
    if not needed <= set(options):
        raise Stop(2, USAGE)
    return command, options


class Program:
    """One run of the program over a store of files."""

    def __init__(self, store):
        self.store = store

    def read(self, name, what):
        """The bytes of a file."""
        try:
            return self.store.read(name)
        except OSError:
            raise Stop(1, f"cannot read the {what}") from None

    def disk(self, name):
        """The bytes of the journal; a file that is not there has none."""
        try:
            return self.store.read(name)
        except FileNotFoundError:
            return b""
        except OSError:
            raise Stop(7, "disk") from None

    def members(self, options):
        """The content of the member file."""
        try:
            return read_members(self.read(options["members"], "member file"))
        except Fault as fault:
            raise Stop(3, f"members: {fault.text}") from None

    def own(self, members, options):
        """The number of the member whose node is meant."""
        number = members.number(options["own"])
        if number is None or not members.list[number].node:
            raise Stop(3, "members: own")
        return number

    def stored(self, members, own, options):
        """The node that the journal keeps."""
        try:
            return Stored(self.disk(options["disk"]), members, own)
        except Fault as fault:
            raise Stop(8, f"journal: {fault.text}") from None

    def lines(self, members, options):
        """The lines of the script."""
        data = self.read(options["script"], "script")
        try:
            return read_script(data, members, options.get("workers", 0))
        except Fault as fault:
            raise Stop(4, fault.text) from None

    def played(self, options):
        """The node of the own member after the script."""
        members = self.members(options)
        own = self.own(members, options)
        lines = self.lines(members, options)
        return own, members, lines

    def node(self, own, members, lines):
        """The node after the lines are played."""
        world = World(members)
        world.run(lines)
        return world.nodes[own]

    def run(self, options):
        """The report of a script."""
        members = self.members(options)
        world = World(members)
        texts = world.run(self.lines(members, options))
        return text_of(texts + world.final_blocks())

    def make(self, options):
        """The summary of a made input."""
        members, script = made_input(options["seed"], options["members"],
                                     options["lines"])
        world = World(members)
        world.run(read_script(script, members))
        return text_of(summary(world))

    def keep(self, options):
        """A node that is kept in a journal."""
        members = self.members(options)
        own = self.own(members, options)
        data = self.read(options["events"], "event file")
        if len(data) > LONGEST_FILE:
            raise Stop(4, "events: too-long")
        try:
            events = events_of(data)
        except Fault as fault:
            raise Stop(4, fault.text) from None
        stored = self.stored(members, own, options)
        texts = kept_work(stored, events, options.get("time"))
        self.store.write(options["disk"], bytes(stored.file))
        return text_of(texts)

    def prove(self, options):
        """A certificate of a node's order."""
        return certificate.certificate(self.node(*self.played(options)))

    def check(self, options):
        """What a certificate shows."""
        members = self.members(options)
        data = self.read(options["proof"], "proof file")
        if len(data) > LONGEST_PROOF:
            raise Stop(9, "proof: too-long")
        try:
            rows, order = certificate.check(members, data)
        except Fault as fault:
            raise Stop(9, f"proof: {fault.text}") from None
        texts = [f"yes rows {len(rows)} ordered {len(order)}"]
        for count, (place, round_, time) in enumerate(order, 1):
            texts.append(f"{count} {rows[place].name.hex()} "
                         f"round {round_} time {time}")
        return text_of(texts)

    def storm(self, options):
        """The blocks after a storm, or None where they may be several."""
        members = self.members(options)
        texts = storm.certain(members, options["turns"])
        return None if texts is None else text_of(texts)

    def ask(self, options):
        """The message that asks for what a node lacks."""
        node = self.node(*self.played(options))
        return messages.have_message(node.tips())

    def message(self, options, name, wanted):
        """The items of a message file."""
        data = self.read(options[name], "message file")
        try:
            return messages.read_message(data, wanted)
        except Fault as fault:
            raise Stop(10, f"wire: {fault.text}") from None

    def serve(self, options):
        """The answer to a message that asks."""
        played = self.played(options)
        names = self.message(options, "have", messages.HAVE)
        node = self.node(*played)
        last = node.last_own()
        return messages.rows_message(node.beyond(names), last and last.name)

    def take(self, options):
        """What a node takes from an answer."""
        played = self.played(options)
        events = self.message(options, "rows", messages.ROWS)
        node = self.node(*played)
        taken, _, refused = put_all(node, events)
        node.settle()
        return text_of([f"taken {taken} refused {refused}"] + block(node))


def kept_work(stored, events, time):
    """The work of the command that keeps a node, and what it prints."""
    texts = [f"opened {len(stored.node.rows)}"]
    counts = put_all(stored, [row.spelling for row in events])
    texts.append("accepted {} known {} refused {}".format(*counts))
    if time is not None:
        texts.append(kept_row(stored, time))
    stored.remark(len(stored.node.rows))
    return texts + block(stored.node)


def kept_row(stored, time):
    """The row that the command makes at a time, as it is printed."""
    node = stored.node
    others, peer = (), node.last_other()
    try:
        if node.last_own() is not None:
            if peer is None:
                raise Fault("peer-bare")
            others = (peer.name,)
        place = stored.make(others, time, b"")
    except Fault as fault:
        return f"made none {fault.text}"
    return f"made {place} {node.rows[place].spelling.hex()}"


def text_of(texts):
    """Lines of text as bytes."""
    return "".join(text + "\n" for text in texts).encode()


def hashgraph(words, store):
    """The status, what goes to the output and what to the errors."""
    try:
        command, options = read_words(words)
        return 0, getattr(Program(store), command)(options), b""
    except Stop as stop:
        return stop.status, b"", f"hashgraph: {stop.text}\n".encode()


class Files:
    """The real files."""

    def read(self, name):
        """The bytes of a file."""
        with open(name, "rb") as file:
            return file.read()

    def write(self, name, data):
        """Puts bytes into a file."""
        with open(name, "wb") as file:
            file.write(data)


def main():
    """The program itself."""
    status, out, errors = hashgraph(sys.argv[1:], Files())
    sys.stdout.buffer.write(out)
    sys.stderr.buffer.write(errors)
    sys.exit(status)


if __name__ == "__main__":
    main()
