"""Plays a script: the nodes after each line, and the output that the program should print of them."""

import re
import sys

from .consensus import Ledger, Web
from .events import PAYLOAD_MOST, Fields, Refused, name_of, sign, spell, spell_transfers

EVENTS_MOST = 1048576


class Mark:
    """The fame of a witness in a node: its value, since which line, and its first decider and how many rows there were when
    it was decided, both of which published marks lack."""

    def __init__(self, value, line, by=None, rows=None):
        self.value, self.line, self.by, self.rows = value, line, by, rows


class Node:
    """A member's node, or a graph that is no member's. `found` are the marks that its graph decides, `published` those that
    it has published."""

    def __init__(self, members, web, member):
        self.members, self.web, self.member = members, web, member
        self.rows, self.lines = [], []      # the events, and the line at which each came
        self.places = {}                    # of the names
        self.counts = [0] * members.n       # events by each member
        self.forkers = set()
        self.witnesses = {}                 # by round
        self.last_own = None
        self.found, self.published = {}, {}
        self.decided, self.kept = Ledger(members, self.found), Ledger(members, self.published)
        self.frozen = {}                    # by worker the marks that its frozen graph decides
        self.froze = []                     # (line, worker, length)
        self.forked_since = {}              # by forking member the line

    def place(self, event):
        return self.places[event.name]

    def greatest(self):
        return max(self.witnesses, default=0)

    def put(self, data, line):
        try:
            return self.check(data, line)
        except Refused as why:
            return f"refused {why}"

    def check(self, data, line):
        """Takes the bytes, or raises the first thing that is wrong with them."""
        self.web.put += 1
        fields = Fields(data)
        if fields.creator >= self.members.n:
            raise Refused(f"member {fields.creator}")
        name = name_of(data)
        if name in self.places:
            place = self.places[name]
            if self.rows[place].data == data:
                return f"known {place}"
            raise Refused(f"collision {place}")
        creator = self.members.all[fields.creator]
        if fields.signature != sign(creator.secret, fields.body):
            raise Refused("signature")
        if creator is self.member:
            raise Refused("impostor")
        parents = self.parents_of(fields)
        forking = sum(self.members.stakes[m] for m in self.forkers_with(fields.creator, parents))
        if 3 * forking >= sum(self.members.stakes):
            raise Refused(f"too-many-forkers {forking}")
        self.check_room()
        return f"accepted {self.add(self.web.event(data, name, fields, parents), line)}"

    def parents_of(self, fields):
        """The self-parent and the other-parents, all there and by the right creators."""
        for number, name in enumerate(fields.parents):
            if name not in self.places:
                raise Refused(f"missing-{'other' if number else 'self'} {name.hex()}")
        parents = [self.rows[self.places[name]] for name in fields.parents]
        for number, parent in enumerate(parents):
            if (parent.creator == fields.creator) == (number > 0):
                raise Refused(f"{'other' if number else 'self'}-creator {self.place(parent)}")
        return parents

    def forkers_with(self, creator, parents):
        """The forking members once the creator has a further event on these: it keeps to one chain if all that it has
        here are self-ancestors of the new one."""
        chain = parents[0].sequence + 1 if parents else 0
        return self.forkers | ({creator} if self.counts[creator] > chain else set())

    def check_room(self):
        if len(self.rows) >= EVENTS_MOST:
            raise Refused(f"full {EVENTS_MOST}")

    def make(self, others, time, payload, line):
        """Makes an event on the node's last own one and on those of these names, or a first one where there are none."""
        if not others and self.last_own:
            raise Refused("has-first")
        if others and not self.last_own:
            raise Refused("no-first")
        for name in others:
            if name not in self.places:
                raise Refused(f"missing-other {name.hex()}")
        parents = [self.rows[self.places[name]] for name in others]
        for parent in parents:
            if parent.creator == self.member.number:
                raise Refused(f"other-creator {self.place(parent)}")
        if len(payload) > PAYLOAD_MOST:
            raise Refused(f"payload-long {len(payload)}")
        parents = [self.last_own, *parents] if parents else []
        data = spell(self.member, [row.name for row in parents], time, payload)
        name = name_of(data)
        if name in self.places:
            raise Refused(f"collision {self.places[name]}")
        self.check_room()
        self.web.put += 1
        self.last_own = self.web.event(data, name, Fields(data), parents)
        return f"made {self.add(self.last_own, line)}"

    def restore(self, data, line):
        """Puts an event again that the node has made."""
        self.web.put += 1
        fields = Fields(data)
        self.last_own = self.web.event(data, name_of(data), fields, self.parents_of(fields))
        self.add(self.last_own, line)

    def add(self, event, line):
        """Puts the event at the next place, which is the answer."""
        for member in self.forkers_with(event.creator, event.parents) - self.forkers:
            self.forkers.add(member)
            self.forked_since[member] = line
        self.places[event.name] = len(self.rows)
        self.rows.append(event)
        self.lines.append(line)
        self.counts[event.creator] += 1
        if event.witness:
            self.witnesses.setdefault(event.round, []).append(event)
            self.find_fame(event, line)
            self.mark_late(event, line)
            self.decided.advance(self.witnesses, line)
            self.kept.advance(self.witnesses, line)
        return len(self.rows) - 1

    def find_fame(self, new, line):
        """The fame that the graph decides with the new witness: its own, and that of earlier rounds' witnesses. The first
        decider is that of the least round, and of the least place in it."""
        pairs = [(new, y) for r in sorted(self.witnesses) if r > new.round for y in self.witnesses[r]]
        pairs += [(x, new) for r in self.witnesses if r < new.round for x in self.witnesses[r]]
        for x, y in pairs:
            known = self.found.get(x)
            if known and known.by.round <= y.round:
                continue
            vote = self.web.vote(y, x)
            if vote.decides:
                if known and known.value != vote.value:
                    sys.exit("draw-graph: two witnesses decide otherwise on a third; nothing is written")
                since, rows = (known.line, known.rows) if known else (line, len(self.rows))
                self.found[x] = Mark(vote.value, since, y, rows)

    def mark_late(self, new, line):
        """A witness that comes to a closed round is not famous: its graph says so, and where the node has published the
        round's fame, the mark is published with it."""
        if new.round <= self.decided.closed and (new not in self.found or self.found[new].value):
            sys.exit("draw-graph: a witness came to a closed round and is not decided as not famous; nothing is written")
        if new.round <= self.kept.closed:
            self.published[new] = Mark(False, line)

    def publish(self, marks, line):
        """Publishes the marks, and answers how many had not been published before."""
        fresh = [x for x in marks if x not in self.published]
        for x in fresh:
            self.published[x] = Mark(marks[x].value, line)
        self.kept.advance(self.witnesses, line)
        return len(fresh)

    def publish_share(self, rows, share, shares, line):
        """Publishes what a share of the witnesses decides in the first rows."""
        witnesses = [x for x in self.rows if x.witness][share::shares]
        found = {x: self.found[x] for x in witnesses if x in self.found and self.found[x].rows <= rows}
        return self.publish(found, line)

    def settle(self, line):
        self.publish(self.found, line)

    def block(self, ledger, names=False):
        """The block of the output."""
        lines = [f"node {self.member.name} events {len(self.rows)} forkers {len(self.forkers)} round {self.greatest()} "
                 f"closed {ledger.closed} ordered {len(ledger.order)}"]
        for number, row in enumerate(ledger.order, 1):
            creator = self.members.all[row.event.creator].name
            name = f" {row.event.name.hex()}" if names else ""
            lines.append(f"{number} {creator} {row.event.sequence} round {row.received} time {row.time} {row.effect()}{name}")
        for member, balance in zip(self.members.all, ledger.balances):
            lines.append(f"balance {member.name} {balance}")
        return lines


class Lines:
    """What comes of lines, one after the other. `report` has pairs of a line and of what is printed; what is printed behind
    the last one stands under the line `end`. `costs` has for each line, over all nodes, how many events were put or made,
    votes worked out, events ordered, and lines printed."""

    def __init__(self, members):
        self.members = members
        self.web = Web(members.stakes, members.coin)
        self.nodes, self.script = {}, []
        self.label_lines = []       # (line, label, bytes)
        self.report, self.costs = [], {}
        self.line = 0

    def play(self, script):
        """Lets `do` do each line, and `close` what comes behind the last one."""
        for self.line, text in enumerate(script, 1):
            before = self.spent()
            self.do(text)
            self.costs[self.line] = [now - then for now, then in zip(self.spent(), before)]
        self.end = self.line = len(script) + 1
        self.close()

    def spent(self):
        ordered = sum(len(node.decided.order) for node in self.nodes.values())
        return self.web.put, self.web.weighed, ordered, len(self.report)

    def print_lines(self, lines):
        self.report += [(self.line, line) for line in lines]


class Play(Lines):
    """A script that the program takes."""

    kind, step = "script", "line"

    def __init__(self, members, script):
        super().__init__(members)
        self.script = script
        self.nodes = {m.name: Node(members, self.web, m) for m in members.all if m.has_node}
        self.labels, self.word = {}, ""
        self.play(script)

    def do(self, text):
        words = text.strip(" \t")
        if words and not words.startswith("#"):
            self.word, *rest = re.split("[ \t]+", words)
            getattr(self, f"line_{self.word}")(*rest)

    def close(self):
        for node in self.nodes.values():
            node.settle(self.end)
            self.print_lines(node.block(node.kept))

    def answer(self, text):
        self.print_lines([f"{self.line} {self.word} {text}"])

    def make(self, x, others, time, payload):
        """What a node's making answers: `made P`, or the fault."""
        return self.nodes[x].make(others, int(time), self.payload(payload), self.line)

    def payload(self, word):
        if word.startswith("hex:"):
            return bytes.fromhex(word[4:])
        if not word:
            return b""
        pairs = [pair.split("=") for pair in word[4:].split(",")]
        number = lambda who: int(who[1:]) if who.startswith("#") else self.members.numbers[who]
        return spell_transfers([(number(who), int(amount)) for who, amount in pairs])

    def label(self, label, data):
        self.labels[label] = data
        self.label_lines.append((self.line, label, data))

    def take(self, x, y):
        """Puts to x what it lacks of y's events, in y's order: how many were taken and refused."""
        taker = self.nodes[x]
        answers = [taker.put(row.data, self.line) for row in self.nodes[y].rows if row.name not in taker.places]
        refused = sum(answer.startswith("refused") for answer in answers)
        return f"taken {len(answers) - refused} refused {refused}"

    def line_create(self, x, time, payload=""):
        try:
            self.answer(self.make(x, [], time, payload))
        except Refused as why:
            self.answer(f"refused {why}")

    def names_of(self, labels):
        """The names of the events of labels between commas."""
        return [name_of(self.labels[label]) for label in labels.split(",")]

    def line_join(self, x, labels, time, payload=""):
        try:
            self.answer(self.make(x, self.names_of(labels), time, payload))
        except Refused as why:
            self.answer(f"refused {why}")

    def line_sync(self, x, y, time, payload=""):
        taken = self.take(x, y)
        last = self.nodes[y].last_own
        try:
            if not last:
                raise Refused("peer-bare")
            self.answer(f"{taken} {self.make(x, [last.name], time, payload)}")
        except Refused as why:
            self.answer(f"{taken} made none {why}")

    def line_pull(self, x, y):
        self.answer(self.take(x, y))

    def line_give(self, x, label):
        self.answer(self.nodes[x].put(self.labels[label], self.line))

    def line_name(self, label, x):
        last = self.nodes[x].last_own
        self.label(label, last.data if last else b"")

    def line_forge(self, label, m, own, others, time, payload=""):
        parents = [] if own == "-" else self.names_of(f"{own},{others}")
        member = self.members.all[self.members.numbers[m]]
        self.label(label, spell(member, parents, int(time), self.payload(payload)))

    def line_raw(self, label, digits):
        self.label(label, bytes.fromhex(digits))

    def line_alter(self, label, source, at, change):
        data = bytearray(self.labels[source])
        if int(at) < len(data):
            data[int(at)] ^= int(change)
        self.label(label, bytes(data))

    def line_cut(self, label, source, count):
        self.label(label, self.labels[source][:int(count)])

    def line_freeze(self, x, worker):
        node = self.nodes[x]
        node.frozen[int(worker)] = dict(node.found)
        node.froze.append((self.line, int(worker), len(node.rows)))
        self.answer(str(len(node.rows)))

    def line_publish(self, x, worker):
        node = self.nodes[x]
        self.answer(str(node.publish(node.frozen.get(int(worker), {}), self.line)))

    def line_kept(self, x):
        self.print_lines(self.nodes[x].block(self.nodes[x].kept))

    def line_show(self, x):
        self.nodes[x].settle(self.line)
        self.line_kept(x)

    def line_names(self, x):
        node = self.nodes[x]
        node.settle(self.line)
        self.print_lines(node.block(node.kept, names=True))
