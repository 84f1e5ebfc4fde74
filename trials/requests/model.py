"""A model of a node that a host drives: request lines, and what is answered to them.

    model.py MEMBERS OWN < requests         the greeting and all answers of a node that begins with its first event
    model.py --bad MEMBERS < requests       a line for each request: the answer `0 bad WHY`, or the first word of what is a request

Requests are read here, by the form of the lines alone. What a node does with them is done by the definitions in
`trials/definitions`, which compute each answer anew and slowly. The standard library of Python 3.11 is all that is needed.
"""

import hashlib
import os
import re
import sys
from dataclasses import dataclass, field

HERE = os.path.dirname(os.path.abspath(__file__))
sys.path.insert(0, os.path.join(HERE, "..", "definitions"))

LONGEST_LINE = 1_048_576
MOST_LINES = 4096
MOST_NAMES = 4
MOST_TRANSFERS = 64
LONGEST_PAYLOAD_DIGITS = 2048
PROOF_DIGITS = 65_536

NUMBER = re.compile(rb"[0-9]{1,20}")
PAIRS = re.compile(rb"([0-9A-Fa-f]{2})*")
NAME = re.compile(rb"[0-9A-Fa-f]{96}")
ALONE = ("members", "state", "heads", "settle", "balances", "proof")


class Bad(Exception):
    """A line that is no request, kept as the word that tells why."""


@dataclass
class Request:
    """A request: its first word, its numbers, its payload, and its names or events."""

    word: str
    numbers: list = field(default_factory=list)
    payload: bytes = b""
    items: list = field(default_factory=list)


# ---- reading lines


def lines_in(heard):
    """The lines of what was heard; what stands behind the last line feed is none."""
    return heard.split(b"\n")[:-1]


def read_number(word, least=0, greatest=2**64 - 1):
    """A number of 1 to 20 decimal digits in a range."""
    if not NUMBER.fullmatch(word) or not least <= int(word) <= greatest:
        raise Bad("number")
    return int(word)


def read_limit(word):
    """How many lines are wanted."""
    return read_number(word, 1, MOST_LINES)


def read_name(word):
    """The 48 bytes of a name."""
    if not NAME.fullmatch(word):
        raise Bad("name")
    return bytes.fromhex(word.decode())


def read_event(word):
    """The bytes of an event, of which there is one at least."""
    if not word or not PAIRS.fullmatch(word):
        raise Bad("digits")
    return bytes.fromhex(word.decode())


def read_receiver(text, names):
    """The number of a member by its name, or any number behind `#`."""
    if text.startswith(b"#"):
        return read_number(text[1:], 0, 2**16 - 1)
    if text not in names:
        raise Bad("member")
    return names.index(text)


def read_payload(word, names):
    """The payload that a word tells; the names are those of the members."""
    if word == b"-":
        return b""
    if word.startswith(b"hex:"):
        digits = word[4:]
        if len(digits) > LONGEST_PAYLOAD_DIGITS or not PAIRS.fullmatch(digits):
            raise Bad("payload")
        return bytes.fromhex(digits.decode())
    if not word.startswith(b"pay:"):
        raise Bad("payload")
    items = word[4:].split(b",")
    if len(items) > MOST_TRANSFERS or any(item.count(b"=") != 1 for item in items):
        raise Bad("payload")
    payload = bytes([len(items)])
    for item in items:
        receiver, amount = item.split(b"=")
        payload += read_receiver(receiver, names).to_bytes(2, "big")
        payload += read_number(amount).to_bytes(8, "big")
    return payload


def read_make(words, names):
    """TIME, and then a payload and at most four names, if anything."""
    if not 1 <= len(words) <= 2 + MOST_NAMES:
        raise Bad("arity")
    time = read_number(words[0])
    payload = read_payload(words[1], names) if len(words) > 1 else b""
    return Request("make", [time], payload, [read_name(word) for word in words[2:]])


def read_beyond(words):
    """PLACE, LIMIT and names."""
    if len(words) < 2:
        raise Bad("arity")
    numbers = [read_number(words[0]), read_limit(words[1])]
    return Request("beyond", numbers, items=[read_name(word) for word in words[2:]])


def read_window(word, words):
    """Where a part of a list begins, and how much of it is wanted; the order begins with 1."""
    if len(words) != 2:
        raise Bad("arity")
    first = read_number(words[0], 1 if word == "order" else 0)
    return Request(word, [first, read_limit(words[1])])


def request_of(line, names):
    """The request that a line is; raises `Bad`. The names are those of the members, as bytes, in their order."""
    if len(line) > LONGEST_LINE:
        raise Bad("long")
    words = [word for word in re.split(rb"[ \t]", line) if word]
    if not words:
        raise Bad("word")
    word, words = words[0].decode("latin-1"), words[1:]
    if word in ALONE:
        if words:
            raise Bad("arity")
        return Request(word)
    if word in ("put", "restore"):
        return Request(word, items=[read_event(event) for event in words])
    if word == "beyond":
        return read_beyond(words)
    if word == "make":
        return read_make(words, names)
    if word in ("order", "events"):
        return read_window(word, words)
    raise Bad("word")


# ---- answers


def answer(first, further=()):
    """The text of an answer: the count of the lines that follow, the first line, and these."""
    return "".join(f"{line}\n" for line in [f"{len(further)} {first}", *further])


def bad_answer(why):
    """The answer to a line that is no request."""
    return answer(f"bad {why}")


def canonical(members):
    """All in a member file that an order can depend on."""
    entries = [f"{m.name} {m.balance} {m.stake}\n" for m in members.list]
    return f"coin {members.coin}\n" + "".join(entries)


def digest_of(members):
    """SHA-384 of the canonical text."""
    return hashlib.sha384(canonical(members).encode()).digest()


class Service:
    """A node, and whether an event by its member was refused that it did not make."""

    def __init__(self, members, own, limit=1 << 20):
        from node import Node
        self.members = members
        self.names = [member.name.encode() for member in members.list]
        self.bound = b"HGM1" + digest_of(members)
        self.impostor = False
        self.node = Node(members, own, limit)
        self.node.make([], 0, self.bound)

    def answer_to(self, line):
        """What is answered to a line."""
        try:
            request = request_of(line, self.names)
        except Bad as why:
            return bad_answer(why)
        return getattr(self, f"tell_{request.word}")(request)

    def tell_members(self, _request):
        own = self.members.list[self.node.own].name
        further = [f"{m.name} {m.balance} {m.stake}" for m in self.members.list]
        return answer(f"members {own} {self.members.coin} {digest_of(self.members).hex()}", further)

    def waiting(self):
        """How many rows have a payload and are not ordered."""
        ordered = {entry[0] for entry in self.node.kept()}
        return sum(bool(row.payload) and place not in ordered for place, row in enumerate(self.node.rows))

    def strange(self):
        """The names of the members with a first event that is not bound to these members."""
        strange = {row.creator for row in self.node.rows if row.self_parent is None and row.payload != self.bound}
        return ",".join(m.name for number, m in enumerate(self.members.list) if number in strange) or "-"

    def last_own(self):
        """The place and the time of the last own event."""
        own = [f"{place} {row.time}" for place, row in enumerate(self.node.rows) if row.creator == self.node.own]
        return own[-1] if own else "- -"

    def tell_state(self, _request=None):
        node, graph = self.node, self.node.graph
        length = len(node.rows)
        return answer(f"state events {length} forkers {len(graph.forkers())} round {graph.greatest(length)} "
                      f"closed {graph.closed(node.marks, length)} ordered {len(node.kept())} waiting {self.waiting()} "
                      f"own {self.last_own()} impostor {'yes' if self.impostor else 'no'} strange {self.strange()}")

    def tell_heads(self, _request):
        last = {row.creator: row.name for row in self.node.rows}
        return answer("heads", [last[number].hex() for number in sorted(last)])

    def tell_beyond(self, request):
        place, limit = request.numbers
        below = 0
        for name in request.items:
            if name in self.node.graph.place_by_name:
                below |= self.node.graph.ancestors[self.node.graph.place_by_name[name]]
        rows = [row.spelling.hex() for at, row in enumerate(self.node.rows) if at >= place and not below >> at & 1]
        return answer(f"beyond {len(rows)} {len(self.node.rows)}", rows[:limit])

    def take_all(self, word, take, events):
        """Hands events to the node one after the other."""
        from event import Fault
        from node import Known
        before, accepted, known, refused = len(self.node.rows), 0, 0, []
        for number, event in enumerate(events):
            try:
                take(event)
                accepted += 1
            except Known:
                known += 1
            except Fault as fault:
                refused.append(f"{number} {fault.text}")
                self.impostor |= fault.text == "impostor"
        return answer(f"{word} {before} {accepted} {known}", refused)

    def tell_put(self, request):
        return self.take_all("put", self.node.put, request.items)

    def tell_restore(self, request):
        return self.take_all("restored", self.node.restore, request.items)

    def others_for(self, request):
        """The names on which an event is made, or why none is."""
        if self.impostor:
            return None, "impostor"
        if request.items:
            return request.items, None
        if self.node.last_own() is None:
            return None, "no-first"
        other = self.node.last_other()
        if other is None:
            return None, "peer-bare"
        if not request.payload and self.node.rows[-1].creator == self.node.own:
            return None, "idle"
        return [other.name], None

    def tell_make(self, request):
        from event import Fault
        others, why = self.others_for(request)
        if why:
            return answer(f"refused {why}")
        try:
            place = self.node.make(others, request.numbers[0], request.payload)
        except Fault as fault:
            return answer(f"refused {fault.text}")
        return answer(f"made {place} {self.node.rows[place].spelling.hex()}")

    def tell_settle(self, _request):
        return answer(f"settled {self.node.remark(len(self.node.rows))}")

    def book(self):
        """The effects of the order, and the balances behind it."""
        from ledger import effect
        balances = [member.balance for member in self.members.list]
        effects = [effect(balances, self.node.rows[place]) for place, _, _ in self.node.kept()]
        return effects, balances

    def tell_order(self, request):
        first, limit = request.numbers
        kept, (effects, _) = self.node.kept(), self.book()
        further = []
        for number in range(first, min(first + limit, len(kept) + 1)):
            place, round_, time = kept[number - 1]
            row = self.node.rows[place]
            sequence = self.node.graph.self_ancestors[place].bit_count() - 1
            further.append(f"{number} {self.members.list[row.creator].name} {sequence} round {round_} time {time} "
                           f"{row.name.hex()} {row.payload.hex() or '-'} {effects[number - 1]}")
        return answer(f"order {len(kept)}", further)

    def tell_events(self, request):
        place, limit = request.numbers
        rows = self.node.rows[place : place + limit]
        return answer(f"events {len(self.node.rows)}", [row.spelling.hex() for row in rows])

    def tell_balances(self, _request):
        balances = zip(self.members.list, self.book()[1])
        return answer(f"balances {len(self.node.kept())}", [f"{m.name} {balance}" for m, balance in balances])

    def tell_proof(self, _request):
        from certificate import certificate
        data = certificate(self.node)
        digits = data.hex()
        cuts = [digits[at : at + PROOF_DIGITS] for at in range(0, len(digits), PROOF_DIGITS)]
        return answer(f"proof {len(data)}", cuts)


def main(arguments):
    from members import read_members
    only_bad = arguments[:1] == ["--bad"]
    if len(arguments) != 2:
        sys.exit(__doc__)
    with open(arguments[1 if only_bad else 0], "rb") as file:
        members = read_members(file.read())
    names = [member.name.encode() for member in members.list]
    heard = lines_in(sys.stdin.buffer.read())
    if only_bad:
        for line in heard:
            try:
                print(request_of(line, names).word)
            except Bad as why:
                print(bad_answer(why), end="")
        return
    service = Service(members, names.index(arguments[1].encode()))
    sys.stdout.write(service.tell_state())
    for line in heard:
        sys.stdout.write(service.answer_to(line))


if __name__ == "__main__":
    main(sys.argv[1:])
