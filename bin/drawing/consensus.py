"""Rounds, votes, fame, order and balances, worked out from their definitions and apart from the program.

Ancestors, round and votes of an event hang on nothing but its ancestors, which every node that has it has as well. So
they are worked out once for all nodes, in a Web of all events. Sets of events are whole numbers, a bit for each event.
Which witnesses have fame, and what is ordered, is a matter of each node."""

from collections import namedtuple

from .events import read_transfers

# A witness's vote on another; whether it decides, and whether it was taken from the signature's middle bit.
Vote = namedtuple("Vote", "value decides by_bit")


class Event:
    """An event of the web; its number there is `index`, its bit in sets `bit`."""

    def __init__(self, index, data, name, fields, parents):
        self.index, self.bit, self.data, self.name = index, 1 << index, data, name
        self.creator, self.time, self.payload = fields.creator, fields.time, fields.payload
        self.signature, self.parents = fields.signature, parents
        self.own = own = parents[0] if parents else None
        self.sequence = own.sequence + 1 if own else 0
        self.selves = self.bit | (own.selves if own else 0)
        self.ancestors = self.bit
        for parent in self.parents:
            self.ancestors |= parent.ancestors
        self.seers = 0          # the events that see this one, kept for witnesses
        self.votes = {}         # by the witness voted on, as far as they were asked for

    def middle_bit(self):
        return self.signature[32] >= 128


class Web:
    """All events of a run."""

    def __init__(self, stakes, coin):
        self.n, self.coin = len(stakes), coin
        self.stakes, self.total = stakes, sum(stakes)
        self.events, self.known = [], {}
        self.by_creator = [0] * self.n
        self.witnesses = {}     # by round
        self.put, self.weighed = 0, 0       # how many events were put to nodes or made, and how many votes worked out

    def most(self, stake):
        """Is it more than two thirds of all stake?"""
        return 3 * stake > 2 * self.total

    def weight(self, events):
        """The stake of the events' creators, of each event by itself."""
        return sum(self.stakes[event.creator] for event in events)

    def event(self, data, name, fields, parents):
        """The event of these bytes on these parents, the self-parent first."""
        if data not in self.known:
            event = Event(len(self.events), data, name, fields, parents)
            self.events.append(event)
            self.known[data] = event
            self.by_creator[event.creator] |= event.bit
            event.forked = {m for m in range(self.n) if self.forks(event, m)}
            self.place_round(event)
        return self.known[data]

    def forks(self, x, member):
        """Do the ancestors of x hold a fork by the member? An event comes after its self-ancestors, so without a fork
        all of the member's are self-ancestors of the last one."""
        mine = x.ancestors & self.by_creator[member]
        return mine != 0 and mine & ~self.events[mine.bit_length() - 1].selves != 0

    def sees(self, x, y):
        return x.ancestors & y.bit != 0 and y.creator not in x.forked

    def strongly_sees(self, x, y):
        """Has x for members of more than two thirds of stake an ancestor by them that sees the witness y?"""
        through = x.ancestors & y.seers
        return self.most(sum(stake for mine, stake in zip(self.by_creator, self.stakes) if through & mine))

    def place_round(self, x):
        """The round of x, whether it is a witness, and the witnesses of the round before that it strongly sees."""
        for witnesses in self.witnesses.values():
            for w in witnesses:
                if self.sees(x, w):
                    w.seers |= x.bit
        base = max((parent.round for parent in x.parents), default=1)
        seen = [w for w in self.witnesses.get(base, []) if self.strongly_sees(x, w)]
        x.round = base + 1 if self.most(self.weight(seen)) else base
        x.witness = x.own is None or x.round > x.own.round
        x.voters = []
        if x.witness:
            x.voters = [w for w in self.witnesses.get(x.round - 1, []) if self.strongly_sees(x, w)]
            x.seers = x.bit if self.sees(x, x) else 0
            self.witnesses.setdefault(x.round, []).append(x)

    def vote(self, y, x):
        """The vote of the witness y on the witness x of an earlier round."""
        if x not in y.votes:
            y.votes[x] = self.weigh(y, x)
        return y.votes[x]

    def weigh(self, y, x):
        self.weighed += 1
        apart = y.round - x.round
        if apart == 1:
            return Vote(self.sees(y, x), False, False)
        yes = self.weight(w for w in y.voters if self.vote(w, x).value)
        no = self.weight(y.voters) - yes
        majority, stake = (True, yes) if yes >= no else (False, no)
        if apart % self.coin > 0:
            return Vote(majority, self.most(stake), False)
        if self.most(stake):
            return Vote(majority, False, False)
        return Vote(y.middle_bit(), False, True)


class Ordered:
    """An event's place in an order, and what came of its payload."""

    def __init__(self, event, received, time, line):
        self.event, self.received, self.time, self.line = event, received, time, line
        self.done = None        # for each transfer whether it was done
        self.changed = {}       # the balances after it that are others than before

    def effect(self):
        if self.done is None:
            return "unread" if self.event.payload else "-"
        return f"paid {sum(self.done)} of {len(self.done)}"


class Ledger:
    """The closed rounds, the order and the balances that a node's marks of fame give.

    A mark is never taken back and no order cut, so the ledger only grows; `advance` is called after each new mark."""

    def __init__(self, members, marks):
        self.members, self.marks = members, marks
        self.closed = 0
        self.rounds = []        # for each closed round from 1 on (line, unique famous witnesses)
        self.order = []
        self.ordered = 0        # the set of ordered events
        self.balances = [member.balance for member in members.all]

    def advance(self, witnesses, line):
        """Closes each round whose witnesses, by round those of the node's graph, all have a mark."""
        while all(w in self.marks for w in witnesses.get(self.closed + 1, [None])):
            self.closed += 1
            unique = self.unique_famous(witnesses[self.closed])
            self.rounds.append((line, unique))
            if unique:
                self.receive(unique, line)

    def unique_famous(self, witnesses):
        famous = [w for w in witnesses if self.marks[w].value]
        return [w for w in famous if all(v is w or v.creator != w.creator for v in famous)]

    def receive(self, unique, line):
        """Orders what all unique famous witnesses of the closed round have as ancestor and no round before received."""
        fresh = ~self.ordered
        white = 0
        for w in unique:
            fresh &= w.ancestors
            white ^= int.from_bytes(w.signature, "big")
        rows = []
        for x in events_below(unique[0]):
            if fresh & x.bit:
                rows.append(Ordered(x, self.closed, consensus_time(unique, x), line))
        rows.sort(key=lambda row: (row.time, int.from_bytes(row.event.signature, "big") ^ white, row.event.name))
        for row in rows:
            self.pay(row)
        self.order += rows
        self.ordered |= fresh

    def pay(self, row):
        """Does the transfers of the event: each whole, or not where the payer has too little or the receiver is none."""
        transfers, payer = read_transfers(row.event.payload), row.event.creator
        if transfers is None:
            return
        row.done = []
        for receiver, amount in transfers:
            row.done.append(receiver < self.members.n and self.balances[payer] >= amount)
            if row.done[-1]:
                self.balances[payer] -= amount
                self.balances[receiver] += amount
                row.changed.update({member: self.balances[member] for member in (payer, receiver)})


def events_below(x):
    """The ancestors of x, each once."""
    found, waiting = {x}, [x]
    while waiting:
        for parent in waiting.pop().parents:
            if parent not in found:
                found.add(parent)
                waiting.append(parent)
    return found


def consensus_time(unique, x):
    """The median of the times at which the makers of the unique famous witnesses first had x; the lower of the two in
    the middle."""
    times = sorted(first_with(w, x).time for w in unique)
    return times[(len(times) - 1) // 2]


def first_with(w, x):
    """The first self-ancestor of w that has x as ancestor."""
    while w.own and w.own.ancestors & x.bit:
        w = w.own
    return w
