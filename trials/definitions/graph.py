"""The procedures of the algorithm over a list of rows, weighed by stake.

Sets of rows are kept as whole numbers, bit `p` standing for the row at place
`p`.  What is told of a row depends on its ancestors alone, so it is worked
out once, when the row is added.  What is told of a whole graph is worked out
anew each time, for the first `length` rows.
"""


def bits(mask):
    """The places in a set of rows, ascending."""
    while mask:
        least = mask & -mask
        yield least.bit_length() - 1
        mask ^= least


class Graph:
    """A list of rows with the relations between them."""

    def __init__(self, stakes, coin):
        self.stakes = list(stakes)
        self.total = sum(stakes)
        self.coin = coin
        self.rows = []
        self.place_by_name = {}
        self.parents = []
        self.ancestors = []
        self.self_ancestors = []
        self.rows_by = [0] * len(self.stakes)
        self.forked = []
        self.seen_by = []
        self.rounds = []
        self.is_witness = []
        self.witnesses = {}
        self.any_witness = 0
        self.votes = {}
        self.voters = {}

    def over(self, weight):
        """Whether a stake is more than two thirds of the whole stake."""
        return 3 * weight > 2 * self.total

    def fork_in(self, among, member):
        """Whether two of the member's rows in a set are a fork.

        They are none where the last one descends from all of them.
        """
        mine = among & self.rows_by[member]
        return mine != 0 and mine & ~self.self_ancestors[mine.bit_length() - 1] != 0

    def forkers(self, length=None):
        """The members that have a fork among the first rows."""
        length = len(self.rows) if length is None else length
        whole = (1 << length) - 1
        return [m for m in range(len(self.stakes)) if self.fork_in(whole, m)]

    def add(self, row):
        """Adds a row whose parents stand here, and all that it tells."""
        place = len(self.rows)
        parents = []
        if row.self_parent is not None:
            parents = [self.place_by_name[row.self_parent]]
            parents += [self.place_by_name[name] for name in row.others]
        own = 1 << place
        ancestors = own
        for parent in parents:
            ancestors |= self.ancestors[parent]
        self.rows.append(row)
        self.place_by_name[row.name] = place
        self.parents.append(parents)
        self.ancestors.append(ancestors)
        self.self_ancestors.append(
            own | (self.self_ancestors[parents[0]] if parents else 0))
        self.rows_by[row.creator] |= own
        self.forked.append({m for m in range(len(self.stakes))
                            if self.fork_in(ancestors, m)})
        self.seen_by.append(own if row.creator not in self.forked[place] else 0)
        for earlier in bits(ancestors & self.any_witness):
            if self.rows[earlier].creator not in self.forked[place]:
                self.seen_by[earlier] |= own
        self.place_in_round(place, parents)
        return place

    def forkers_with(self, row):
        """The members that have a fork once the row is added."""
        line = 0
        if row.self_parent is not None:
            line = self.self_ancestors[self.place_by_name[row.self_parent]]
        forkers = set(self.forkers())
        if self.rows_by[row.creator] & ~line:
            forkers.add(row.creator)
        return forkers

    def ancestor(self, x, y):
        """Whether `y` is an ancestor of `x`."""
        return bool(self.ancestors[x] >> y & 1)

    def sees(self, x, y):
        """Whether `x` sees the witness `y`."""
        return bool(self.seen_by[y] >> x & 1)

    def strongly_sees(self, x, y):
        """Whether members with over two thirds of stake each lie between."""
        between = self.ancestors[x] & self.seen_by[y]
        weight = sum(stake for member, stake in enumerate(self.stakes)
                     if between & self.rows_by[member])
        return self.over(weight)

    def weight(self, places):
        """The stakes of the rows' creators, one addend for each row."""
        return sum(self.stakes[self.rows[place].creator] for place in places)

    def place_in_round(self, x, parents):
        """Gives the new row its round, and says whether it is a witness."""
        round_ = max((self.rounds[p] for p in parents), default=1)
        strong = [w for w in self.witnesses.get(round_, ())
                  if w != x and self.strongly_sees(x, w)]
        if self.over(self.weight(strong)):
            round_ += 1
        self.rounds.append(round_)
        witness = not parents or round_ > self.rounds[parents[0]]
        self.is_witness.append(witness)
        if witness:
            self.witnesses.setdefault(round_, []).append(x)
            self.any_witness |= 1 << x

    def witnesses_of(self, round_, length):
        """The witnesses of a round among the first rows, in place order."""
        return [w for w in self.witnesses.get(round_, ()) if w < length]

    def strong_before(self, y):
        """The witnesses of the round before `y`'s that `y` strongly sees."""
        if y not in self.voters:
            before = self.witnesses_of(self.rounds[y] - 1, y)
            self.voters[y] = [w for w in before if self.strongly_sees(y, w)]
        return self.voters[y]

    def vote(self, y, x):
        """The vote of witness `y` on an earlier round's `x`, and if it decides."""
        if (y, x) not in self.votes:
            self.votes[y, x] = self.work_out_vote(y, x)
        return self.votes[y, x]

    def work_out_vote(self, y, x):
        """The three cases of a vote, by the difference of the rounds."""
        distance = self.rounds[y] - self.rounds[x]
        if distance == 1:
            return self.sees(y, x), False
        asked = self.strong_before(y)
        yes = self.weight([w for w in asked if self.vote(w, x)[0]])
        no = self.weight([w for w in asked if not self.vote(w, x)[0]])
        value = yes >= no
        strong = self.over(yes if value else no)
        if distance % self.coin:
            return value, strong
        if strong:
            return value, False
        return bool(self.rows[y].signature[32] & 0x80), False

    def fame(self, x, length):
        """The decision of the first decider, by round and place, or None."""
        for round_ in range(self.rounds[x] + 2, self.greatest(length) + 1):
            for y in self.witnesses_of(round_, length):
                value, decides = self.vote(y, x)
                if decides:
                    return value
        return None

    def greatest(self, length):
        """The greatest round of the first rows, or 0."""
        return max(self.rounds[:length], default=0)

    def all_fame(self, length):
        """The fame of each decided witness of the first rows, by place."""
        marks = {}
        for x in range(length):
            if self.is_witness[x]:
                value = self.fame(x, length)
                if value is not None:
                    marks[x] = value
        return marks

    def is_closed(self, marks, round_, length):
        """Whether the round has a witness, and all up to it have a mark."""
        if not self.witnesses_of(round_, length):
            return False
        return all(w in marks for r in range(1, round_ + 1)
                   for w in self.witnesses_of(r, length))

    def closed(self, marks, length):
        """The greatest closed round, or 0."""
        rounds = range(1, self.greatest(length) + 1)
        return max((r for r in rounds if self.is_closed(marks, r, length)),
                   default=0)

    def unique_famous(self, marks, round_, length):
        """The famous witnesses whose creator has no other in the round."""
        famous = [w for w in self.witnesses_of(round_, length) if marks.get(w)]
        creators = [self.rows[w].creator for w in famous]
        return [w for w in famous
                if creators.count(self.rows[w].creator) == 1]

    def received(self, famous_by_round, x):
        """The first round that receives `x`, or None."""
        for round_, famous in famous_by_round:
            if famous and all(self.ancestor(w, x) for w in famous):
                return round_
        return None

    def consensus_time(self, famous, x):
        """The median of the times at which `x` first reached the famous."""
        reached = 0
        for w in famous:
            reached |= self.self_ancestors[w]
        times = []
        for z in bits(reached):
            before = self.parents[z][:1]
            if self.ancestor(z, x) and not any(self.ancestor(b, x) for b in before):
                times.append(self.rows[z].time)
        times.sort()
        return times[(len(times) - 1) // 2]

    def order(self, marks, length):
        """The received rows in order: place, round received and time."""
        closed = [r for r in range(1, self.greatest(length) + 1)
                  if self.is_closed(marks, r, length)]
        famous_by_round = [(r, self.unique_famous(marks, r, length))
                           for r in closed]
        famous_of = dict(famous_by_round)
        keyed = []
        for x in range(length):
            round_ = self.received(famous_by_round, x)
            if round_ is None:
                continue
            time = self.consensus_time(famous_of[round_], x)
            white = whitened(self.rows[x].signature,
                             [self.rows[w].signature for w in famous_of[round_]])
            keyed.append(((round_, time, white, self.rows[x].name),
                          (x, round_, time)))
        return [entry for _, entry in sorted(keyed)]

    def own_order(self, length):
        """The order of the first rows by their own fame."""
        return self.order(self.all_fame(length), length)


def whitened(signature, others):
    """The signature with all the others XORed into it."""
    value = int.from_bytes(signature, "big")
    for other in others:
        value ^= int.from_bytes(other, "big")
    return value.to_bytes(len(signature), "big")
