"""Graphs whose rows are made at will, so that elections go on for long.

In a round one member is hidden until some members have reached the next
round.  Then about half of the next round's witnesses see it, and votes split.
The rows become a script: each is forged and given to a member that is silent.
"""

from event import decode, signed_event
from graph import Graph
from member_files import member_text, name_at
from members import read_members


def free_members(rng):
    """The member file; the last member is the silent one."""
    count = rng.choice([4, 5, 6, 7, 7])
    stake = rng.choice([3, 3, 5, 2**31])
    texts = [f"coin = {rng.choice([3, 3, 3, 3, 4, 5])}\n"]
    for place in range(count):
        own = stake + (rng.choice([0, 0, 1]) if rng.random() < 0.3 else 0)
        texts.append(member_text(name_at(place), rng.randbytes(9).hex(), stake=own))
    texts.append(member_text("S", "0b"))
    return "".join(texts).encode()


class RowMaker:
    """Makes the rows of a graph one by one."""

    def __init__(self, rng, members):
        self.rng = rng
        self.members = members
        self.graph = Graph(members.stakes, members.coin)
        self.creators = range(len(members.list) - 1)
        self.own = {c: [] for c in self.creators}
        self.hidden = {}
        self.width = rng.choice([2, 3, 3, 4])
        half = len(self.creators) // 2
        self.shown_after = rng.choice([half, half, max(1, half - 1), half + 1])
        self.forks = rng.choice([0, 0, 0.03])
        self.stale = rng.choice([0, 0, 0.02, 0.3])
        self.even = rng.choice([0, 0.3, 0.6])
        slow = rng.choice([1, 1, 0.2])
        self.pace = [rng.choice([1, 1, slow]) for _ in self.creators]
        self.bare = [c for c in self.creators if rng.random() < rng.choice([0, 0.2])]
        for creator in self.creators:
            if creator not in self.bare[:1]:
                self.add(creator, None, ())

    def add(self, creator, self_parent, others):
        """Adds a row on the rows at some places."""
        rows, rng = self.graph.rows, self.rng
        first = None if self_parent is None else rows[self_parent].name
        time = rng.choice([len(rows), len(rows), rng.getrandbits(5)])
        row = decode(signed_event(
            self.members.secret(creator), creator, first,
            tuple(rows[place].name for place in others), time, b""))
        forking = sum(map(self.members.stakes.__getitem__,
                          self.graph.forkers_with(row)))
        if row.name not in self.graph.place_by_name and (
                3 * forking < self.graph.total):
            self.own[creator].append(self.graph.add(row))
            self.bare = [c for c in self.bare if c != creator]

    def is_hidden(self, other):
        """Whether a member's last row is kept from the others for now."""
        round_ = self.graph.rounds[self.own[other][-1]]
        if round_ not in self.hidden:
            self.hidden[round_] = self.rng.choice(self.creators)
        return self.hidden[round_] == other

    def ahead(self, other):
        """The creators of the witnesses of the round after a member's last."""
        round_ = self.graph.rounds[self.own[other][-1]] + 1
        return [self.graph.rows[w].creator
                for w in self.graph.witnesses.get(round_, [])]

    def step(self):
        """One more row."""
        rng = self.rng
        creators = [c for c in self.creators if self.own[c]]
        creator = rng.choice(creators)
        if rng.random() < 0.01 and (self.bare or self.forks):
            self.add((self.bare or self.creators)[0], None, ())
        if rng.random() < self.even:
            creator = min(creators, key=lambda c: len(self.own[c]))
        elif rng.random() > self.pace[creator]:
            return
        if self.is_hidden(creator) and len(self.ahead(creator)) <= self.shown_after:
            return
        others = [other for other in creators if other != creator]
        hidden = [other for other in others if self.is_hidden(other)]
        shown = [other for other in hidden
                 if len(self.ahead(other)) >= self.shown_after
                 and creator not in self.ahead(other)]
        open_ = [other for other in others if other not in hidden]
        chosen = shown + rng.sample(open_, min(len(open_), self.width))
        own = self.own[creator]
        at = -1 if rng.random() >= self.forks else rng.randrange(len(own))
        places = [self.own[other][-1] if rng.random() >= self.stale
                  else rng.choice(self.own[other]) for other in chosen[:4]]
        if places:
            rng.shuffle(places)
            self.add(creator, own[at], places)

    def fill(self, most_rows):
        """Rows until there are enough."""
        for _ in range(9 * most_rows):
            if len(self.graph.rows) < most_rows:
                self.step()
        return self.graph


def script_of(rng, members, graph):
    """The lines that forge all rows and give them to the silent member."""
    lines = []
    for place, row in enumerate(graph.rows):
        parents = graph.parents[place]
        words = "- -"
        if parents:
            words = f"r{parents[0]} {','.join(f'r{p}' for p in parents[1:])}"
        name = members.list[row.creator].name
        lines.append(f"forge r{place} {name} {words} {row.time}")
        lines.append(f"give S r{place}")
        if rng.random() < 0.05:
            lines += rng.choice([["freeze S 3"], ["publish S 3"], ["kept S"],
                                 ["show S"], ["names S"],
                                 ["freeze S 3", "publish S 3", "kept S"]])
        if not parents and place > 20:
            lines.append("kept S")
    return "".join(line + "\n" for line in lines).encode()


def rows_case(rng, files):
    """A graph of free rows, as a script and as a certificate."""
    files["members"] = free_members(rng)
    members = read_members(files["members"])
    graph = RowMaker(rng, members).fill(rng.randint(60, 130))
    files["script"] = script_of(rng, members, graph)
    yield ["run", "--members", "members", "--script", "script"]
    proof = yield ["prove", "--members", "members", "--script", "script",
                   "--own", "S"]
    files["proof"] = proof
    yield ["check", "--members", "members", "--proof", "proof"]
