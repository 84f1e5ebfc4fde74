"""Worlds in which the network is cut: into two halves, in each of which members without honesty play another game; or so that
some members are silent for long, or groups of them meet rarely."""

from .world import World


class Half:
    """The honest members of a half, and the labels of all events that were made in it, in order."""

    def __init__(self, honest):
        self.honest, self.labels, self.last = honest, [], {}
        self.given = dict.fromkeys(honest, 0)       # to how many of the labels each node was given

    def add(self, label):
        self.labels.append(label)
        self.last[label.member] = label


class DoubleDealing(World):
    """The forgers have no nodes. In each half they make events as honest members would, on what stands there alone; at the
    end the halves meet. Where the forgers are enough, both halves order, and otherwise: so the premises of safety are needed."""

    def forger_counts(self, most):
        return most, most, min(most + 1, self.n - 1)

    def fill(self):
        draw = self.draw
        honest = [member for member in draw.sample(range(self.n), self.n) if member not in self.forgers]
        self.nodes = sorted(honest)
        cut = draw.choice((len(honest) // 2, len(honest) // 2, draw.randint(0, len(honest))))
        self.halves = [half for half in (Half(honest[:cut]), Half(honest[cut:])) if half.honest]
        for half in self.halves:
            self.begin(half)
        for _ in range(draw.randint(10 * self.n, 50 * self.n)):
            self.step(draw.choice(self.halves))
        self.meet()
        for member in self.nodes:
            self.say("names", self.names[member])

    def begin(self, half):
        """First events. A forger has the same in both halves, or two."""
        for member in half.honest:
            self.line_create(member)
            half.add(self.labels[-1])
        for member in self.forgers:
            before = self.halves[0].last.get(member)
            if before and self.draw.random() < 0.5:
                half.add(before)
            else:
                self.forge(half, member, None)

    def forge(self, half, member, parents):
        label = self.label(member, parents)
        words = [parent.name for parent in parents] if parents else ["-", "-"]
        self.say("forge", label.name, self.names[member], *words, self.time(), self.payload())
        half.add(label)

    def step(self, half):
        """A member of the half makes an event there; or a node publishes, is given damaged bytes, or shows what it has."""
        if self.draw.random() < 0.06:
            kinds = ["alter", "cut", "show"] + ["freeze", "publish", "publish", "kept"] * self.publishing
            getattr(self, "line_" + self.draw.choice(kinds))()
            return
        member = self.draw.choice(half.honest + self.forgers)
        if member in half.given:
            self.join(half, member)
            return
        others = [label for label in half.labels[-2 * self.n:] if label.member != member]
        if others:
            self.forge(half, member, (half.last[member], self.draw.choice(others)))

    def catch_up(self, half, member, count):
        """Gives the node the next labels of its half; at times some twice, or the next one too early."""
        names = [label.name for label in half.labels[half.given[member]:half.given[member] + count]]
        if self.draw.random() < 0.1:
            names = names[-1:] + names + names[:1]
        for name in names:
            self.say("give", self.names[member], name)
        half.given[member] += count

    def join(self, half, member):
        left = len(half.labels) - half.given[member]
        self.catch_up(half, member, self.draw.choice((left, left, self.draw.randint(0, left))))
        others = [label for label in half.labels[:half.given[member]] if label.member != member]
        if others:
            self.say("join", self.names[member], self.draw.choice(others[-self.n:]).name, self.time(), self.payload())
            label = self.label(member)
            self.say("name", label.name, self.names[member])
            half.add(label)

    def meet(self):
        """Each half is given the rest of its own, and then all gossip."""
        for half in self.halves:
            for member in half.honest:
                self.catch_up(half, member, len(half.labels) - half.given[member])
        if self.publishing and self.draw.random() < 0.5:
            self.line_freeze()
        for _ in range(self.draw.choice((0, 1, 2, 6))):
            self.line_gossip()
            self.line_show()


class Apart(World):
    """For most of the script half of the nodes are silent, or groups of two to four gossip among themselves, and one line of
    fifty goes beyond them; the forgers' forks are handed on by gossip. At the end all gossip."""

    def fill(self):
        draw = self.draw
        for member in self.nodes:
            self.line_create(member)
        order = draw.sample(self.nodes, len(self.nodes))
        size = max(2, len(order) // 2) if draw.random() < 0.5 else draw.randint(2, 4)
        groups = [order[at:at + size] for at in range(0, len(order), size)]
        self.group = {member: group for group in groups for member in group}
        self.talking = order[:size] if draw.random() < 0.5 else order
        kinds = {"sync": 60, "pull": 6, "forge": 3 if self.forgers else 0, "deliver": 3, "join": 2, "show": 0.5}
        kinds.update(dict.fromkeys(("freeze", "publish", "kept"), 3 * self.publishing))
        for _ in range(draw.randint(10 * self.n, 45 * self.n)):
            getattr(self, "line_" + draw.choices(list(kinds), list(kinds.values()))[0])()
        self.talking, self.group = order, dict.fromkeys(order, order)
        for _ in range(draw.choice((3, 6, 9))):
            self.line_gossip()
            self.line_show()
        for member in self.nodes:
            self.say("names", self.names[member])

    def two(self):
        """A member who talks, and mostly another one of its group; None where there are none."""
        taker = self.draw.choice(self.talking)
        known = self.nodes if self.draw.random() < 0.02 else self.group[taker]
        others = [member for member in known if member != taker]
        return (taker, self.draw.choice(others)) if others else None


def world_of(seed, apart=False):
    """The world of a seed: every fourth is one of double dealing, or all are of members apart."""
    if apart:
        return Apart(seed)
    return DoubleDealing(seed) if seed % 4 == 3 else World(seed)
