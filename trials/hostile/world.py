"""Worlds made from a number: a member file, and a script in which members cheat and the network is bad.

Events are lost, repeated, put in any order and damaged; members fork, some beyond what the algorithm bears; nodes publish
fame from earlier prefixes. The same number makes the same world. Each script is lawful: it is played to its end."""

import random

TIMES_MOST = 2**64 - 1
# How often a line of a kind comes, beside the others.
KINDS = {"sync": 30, "pull": 8, "name": 6, "join": 4, "forge": 6, "give": 10, "deliver": 5, "alter": 3, "cut": 2, "raw": 1,
         "show": 1, "names": 1, "create": 2, "gossip": 4, "freeze": 5, "publish": 5, "kept": 2}
PUBLISHING = ("freeze", "publish", "kept")


class Label:
    """What a script knows of a label: whose event it stands for, and on which labels it was forged."""

    def __init__(self, name, member=None, parents=None):
        self.name, self.member, self.parents = name, member, parents


class World:
    """A member file and the lines of a script. `publishing` tells whether it has lines that are refused beside workers."""

    def __init__(self, number):
        self.draw = random.Random(number)
        draw = self.draw
        self.n = draw.randint(2, 8)
        self.names = [f"m{i}" if draw.random() < 0.5 else f"M_{i}" for i in range(self.n)]
        self.coin = draw.choice((3, 3, 3, 4, 5, 10))
        have = draw.choice((0.8, 1, 1))
        self.nodes = [i for i in range(self.n) if draw.random() < have] or [0]
        self.created, self.labels, self.lines = set(), [], []
        self.forgers = self.some_forgers()
        self.clock = draw.choice((1, 1, 50, TIMES_MOST - 1000))
        self.publishing = draw.random() < 0.5
        self.kinds = self.some_kinds()
        self.fill()

    def some_forgers(self):
        """Mostly so many as the premises of safety bear, and at times one more, or everybody."""
        most = (self.n - 1) // 3
        count = self.draw.choice(self.forger_counts(most))
        return self.draw.sample(range(self.n), count)

    def forger_counts(self, most):
        return 0, most, most, most, most, most + 1, self.n

    def some_kinds(self):
        kinds = {kind: often * self.draw.choice((0.2, 1, 1, 3)) for kind, often in KINDS.items()}
        for kind in PUBLISHING:
            kinds[kind] *= self.publishing
        if not self.forgers:
            kinds["forge"] = 0
        return kinds

    def fill(self):
        for member in self.draw.sample(self.nodes, len(self.nodes)):
            if self.draw.random() < 0.95:
                self.line_create(member)
        kinds, often = list(self.kinds), list(self.kinds.values())
        for _ in range(self.draw.randint(5, 30 * self.n)):
            getattr(self, "line_" + self.draw.choices(kinds, often)[0])()
        if self.draw.random() < 0.15:
            self.damage_each_byte()
        for member in self.draw.sample(self.nodes, len(self.nodes)):
            self.say("names", self.names[member])

    def members(self):
        """The member file."""
        parts = [f"coin = {self.coin}\n"]
        for i, name in enumerate(self.names):
            parts.append(f'[[member]]\nname = "{name}"\nsecret = "{i + 1:02x}{i + 7:02x}"\nbalance = {i * 10}\n')
            if i not in self.nodes:
                parts.append("node = false\n")
        return "".join(parts)

    def script(self):
        return "".join(line + "\n" for line in self.lines)

    def say(self, *words):
        self.lines.append(" ".join(str(word) for word in words if word != ""))

    def node(self):
        return self.draw.choice(self.nodes)

    def label(self, member=None, parents=None):
        """A new label."""
        label = Label(f"e{len(self.labels)}", member, parents)
        self.labels.append(label)
        return label

    def old_label(self):
        """A label, more often a late one; None where there is none."""
        if not self.labels:
            return None
        late = self.labels[-8:] if self.draw.random() < 0.6 else self.labels
        return self.draw.choice(late)

    def time(self):
        self.clock = min(self.clock + 1, TIMES_MOST)
        return self.draw.choice((self.clock, self.clock, self.clock, self.draw.randint(0, TIMES_MOST), 0, TIMES_MOST))

    def payload(self):
        draw = self.draw
        if draw.random() < 0.7:
            return ""
        if draw.random() < 0.3:
            return "hex:" + draw.randbytes(draw.choice((0, 1, 11, 40, 1024))).hex()
        receivers = [draw.choice(self.names) if draw.random() < 0.9 else f"#{draw.randrange(65536)}" for _ in range(draw.choice((1, 1, 2, 5, 64)))]
        return "pay:" + ",".join(f"{receiver}={draw.choice((0, 1, 5, 20, TIMES_MOST))}" for receiver in receivers)

    def line_create(self, member=None):
        member = self.node() if member is None else member
        if member not in self.created:
            self.created.add(member)
            self.say("create", self.names[member], self.time(), self.payload())
            self.line_name(member)

    def two(self):
        """A member whose first event was made, and another one with a node; None where there are none."""
        takers = [member for member in self.nodes if member in self.created]
        if not takers or len(self.nodes) < 2:
            return None
        taker = self.draw.choice(takers)
        return taker, self.draw.choice([member for member in self.nodes if member != taker])

    def line_sync(self):
        two = self.two()
        if two:
            self.say("sync", self.names[two[0]], self.names[two[1]], self.time(), self.payload())
            if self.draw.random() < 0.2:
                self.line_name(two[0])

    def line_gossip(self):
        """A while in which the network is good."""
        for _ in range(2 * self.n):
            self.line_sync()

    def line_pull(self):
        if len(self.nodes) > 1:
            taker, peer = self.draw.sample(self.nodes, 2)
            self.say("pull", self.names[taker], self.names[peer])

    def line_name(self, member=None):
        member = self.node() if member is None else member
        self.say("name", self.label(member).name, self.names[member])

    def line_join(self):
        takers, label = [member for member in self.nodes if member in self.created], self.old_label()
        if takers and label:
            taker = self.draw.choice(takers)
            self.say("join", self.names[taker], self.word([label, *self.more(self.labels[-8:])]), self.time(), self.payload())
            self.line_name(taker)

    def more(self, labels):
        """Up to three labels of further other-parents, now and then."""
        return self.draw.choices(labels, k=self.draw.choice((0, 0, 0, 1, 2, 3)))

    def word(self, labels):
        return ",".join(label.name for label in labels)

    def parents_for(self, member):
        """A label of the member's and one to four of others', mostly; any two at times; None for a first event."""
        own = [label for label in self.labels if label.member == member]
        others = [label for label in self.labels if label.member not in (None, member)]
        if self.draw.random() < 0.05 and self.labels:
            return self.old_label(), self.old_label()
        if not own or not others or self.draw.random() < 0.1:
            return None
        return self.draw.choice(own[-4:]), self.draw.choice(others[-8:]), *self.more(others[-8:])

    def line_forge(self):
        member = self.draw.choice(self.forgers)
        for _ in range(self.draw.choice((1, 1, 2, 3))):
            parents = self.parents_for(member)
            words = [parents[0].name, self.word(parents[1:])] if parents else ["-", "-"]
            label = self.label(member, parents)
            self.say("forge", label.name, self.names[member], *words, self.time(), self.payload())
            self.deliver(label)

    def deliver(self, label):
        """Gives a node the event, mostly behind the labels that it was forged on."""
        taker = self.names[self.node()]
        for given in [*(label.parents or ()), label]:
            if self.draw.random() < 0.9:
                self.say("give", taker, given.name)

    def line_deliver(self):
        label = self.old_label()
        if label:
            self.deliver(label)

    def line_give(self):
        label = self.old_label()
        if label:
            taker = self.names[self.node()]
            for _ in range(self.draw.choice((1, 1, 1, 2))):
                self.say("give", taker, label.name)

    def line_alter(self):
        source = self.old_label()
        if source:
            label = self.label()
            self.say("alter", label.name, source.name, self.draw.choice((self.draw.randrange(200), 6, 16, 80)),
                     self.draw.choice((0, 1, 128, self.draw.randrange(256))))
            self.say("give", self.names[self.node()], label.name)

    def line_cut(self):
        source = self.old_label()
        if source:
            label = self.label()
            self.say("cut", label.name, source.name, self.draw.randrange(200))
            self.say("give", self.names[self.node()], label.name)

    def line_raw(self):
        label = self.label()
        front = self.draw.choice((b"", b"HGE1", b"HGE1\0\0\0", b"HGE1\0\0\1"))
        self.say("raw", label.name, (front + self.draw.randbytes(self.draw.choice((1, 16, 74, 120)))).hex())
        self.say("give", self.names[self.node()], label.name)

    def damage_each_byte(self):
        """One event, damaged at each of its bytes and cut at each length, is given to a node."""
        source = self.old_label()
        if not source:
            return
        taker, mask = self.names[self.node()], self.draw.choice((1, 8, 128, 255))
        for at in range(self.draw.choice((90, 190))):
            altered, cut = self.label(), self.label()
            self.say("alter", altered.name, source.name, at, mask)
            self.say("give", taker, altered.name)
            self.say("cut", cut.name, source.name, at)
            self.say("give", taker, cut.name)
        self.say("give", taker, source.name)

    def line_show(self):
        self.say("show", self.names[self.node()])

    def line_names(self):
        self.say("names", self.names[self.node()])

    def line_freeze(self):
        self.say("freeze", self.names[self.node()], self.draw.choice((0, 1, 15)))

    def line_publish(self):
        self.say("publish", self.names[self.node()], self.draw.choice((0, 1, 15)))

    def line_kept(self):
        self.say("kept", self.names[self.node()])
