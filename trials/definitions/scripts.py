"""Made member files and scripts, with forks, faults and odd times.

A maker plays each line at once, so that the next one can be about rows which
the nodes really hold.
"""

from event import Fault, decode
from members import read_members
from play import World
from script import ScriptReader


class ScriptMaker:
    """Makes the lines of a script one by one."""

    def __init__(self, rng, data, most_rows=None, faces=False):
        self.rng = rng
        self.members = read_members(data)
        self.world = World(self.members)
        self.reader = ScriptReader(self.members, 0)
        self.lines = []
        self.played = []
        self.texts = []
        self.by_member = {}
        self.labels = []
        self.clock = rng.choice([0, 0, 5, 2**63, 2**64 - 200])
        self.times = rng.choice(["clock", "clock", "near", "any", "same"])
        self.most_rows = most_rows or rng.randint(8, 110)
        self.nodes = [self.members.list[n].name for n in self.world.nodes]
        self.pattern = rng.choice(["any", "any", "parts", "hub", "ring", "turns"])
        self.part = {name: rng.random() < 0.5 for name in self.nodes}
        self.near = rng.choice([0.5, 0.7, 0.9, 0.97, 1])
        self.forgers = [member.name for member in self.members.list]
        self.weights = {}
        self.mixed = False
        self.face = None
        self.faces_only = faces
        if faces or rng.random() < 0.4:
            self.choose_face()

    def choose_face(self):
        """Chooses a member that shows two faces to two parts of the nodes."""
        rng, total = self.rng, sum(self.members.stakes)
        fit = [m.name for m in self.members.list if 3 * m.stake < total]
        rest = [name for name in self.nodes if name not in fit[-1:]]
        if fit and len(rest) > 1:
            self.face = fit[-1]
            self.nodes = rest
            self.pattern = "parts"
            self.part = {name: at % 2 == 0 for at, name in enumerate(rest)}
            self.last = {True: None, False: None}
            self.fork_at = rng.randint(0, 6)
            self.show_at = self.fork_at + rng.randint(0, 3)
            self.layer = 0
            self.sides = (True, False)
            if self.faces_only:
                self.sides = rng.choice([(True, False), (True,)])
                self.near = rng.choice([0.95, 1, 1] if self.sides[1:]
                                       else [0.7, 0.9, 1])
                self.fork_at = rng.randint(0, 3)
                self.show_at = self.fork_at + rng.randint(1, 3)

    def say(self, text):
        """Adds a line and plays it."""
        line = self.reader.line(len(self.lines) + 1, text)
        self.lines.append(text)
        if line is not None:
            self.played.append(line)
            self.texts += self.world.run([line])

    def node(self, name):
        """The node of a member's name."""
        return self.world.nodes[self.members.number(name)]

    def rows(self):
        """The greatest number of rows of a node."""
        return max(len(node.rows) for node in self.world.nodes.values())

    def time(self):
        """A time, which may be far from the others."""
        self.clock += self.rng.randint(0, 3)
        if self.times == "same":
            return 7
        if self.times == "any" or self.rng.random() < 0.02:
            return self.rng.choice([0, 1, 2**64 - 1, self.rng.getrandbits(64)])
        if self.times == "near":
            return max(0, self.clock + self.rng.randint(-9, 9)) % 2**64
        return self.clock % 2**64

    def payload(self):
        """A payload word with a space before it, or nothing."""
        if self.rng.random() < 0.6:
            return ""
        if self.rng.random() < 0.2:
            size = self.rng.choice([0, 1, 2, 11, 21, 1024])
            first = self.rng.choice([b"\0", b"\1", b"\2", b"\x40", b"\x41"])
            return " hex:" + (first + self.rng.randbytes(size))[:size].hex()
        items = []
        for _ in range(self.rng.choice([1, 1, 2, 3, 64])):
            name = self.rng.choice(self.members.list).name
            if self.rng.random() < 0.15:
                name = f"#{self.rng.choice([0, 1, 6, 7, 300, 65535])}"
            amount = self.rng.choice([0, 1, 5, 30, 100, 2**63, 2**64 - 1])
            items.append(f"{name}={amount}")
        return " pay:" + ",".join(items)

    def label(self, member=None):
        """A new label's word."""
        word = f"l{len(self.labels)}"
        self.labels.append(word)
        if member is not None:
            self.by_member.setdefault(member, []).append(word)
        return word

    def pair(self):
        """A taker and a peer, by the pattern of this script."""
        rng, nodes = self.rng, self.nodes
        x = rng.choice(nodes)
        others = [name for name in nodes if name != x]
        if self.pattern == "hub" and rng.random() < 0.8:
            y = nodes[0] if x != nodes[0] else rng.choice(others)
        elif self.pattern == "ring":
            y = nodes[(nodes.index(x) + 1) % len(nodes)]
        elif self.pattern == "turns":
            at = len(self.lines) % len(nodes)
            x, y = nodes[at], nodes[at - 1]
        else:
            near = [name for name in others if self.part[name] == self.part[x]]
            close = self.pattern == "parts" and near and rng.random() < self.near
            y = rng.choice(near if close else others)
        return x, y

    def made_one(self, name):
        """Whether the node of a name has made its first row."""
        return self.members.number(name) in self.reader.created

    def do_create(self):
        """A first event of a node that has none yet."""
        bare = [name for name in self.nodes if not self.made_one(name)]
        if bare:
            name = self.rng.choice(bare)
            self.say(f"create {name} {self.time()}{self.payload()}")

    def do_late(self):
        """A first event that comes to a node which has published."""
        bare = [name for name in self.nodes if not self.made_one(name)]
        if bare and len(bare) < len(self.nodes):
            x = self.rng.choice([n for n in self.nodes if n not in bare])
            for line in (f"freeze {x} 2", f"publish {x} 2", f"kept {x}",
                         f"create {bare[0]} {self.time()}",
                         f"pull {x} {bare[0]}", f"kept {x}"):
                self.say(line)

    def do_sync(self):
        """A sync, where the taker has a first event."""
        if len(self.nodes) > 1:
            x, y = self.pair()
            if self.made_one(x):
                self.say(f"sync {x} {y} {self.time()}{self.payload()}")

    def do_pull(self):
        """A pull."""
        if len(self.nodes) > 1:
            self.say("pull {} {}".format(*self.pair()))

    def do_name(self):
        """A label for a node's last row."""
        name = self.rng.choice(self.nodes)
        self.say(f"name {self.label(name)} {name}")

    def do_join(self):
        """A row with one to four other-parents, most of which are held."""
        rng = self.rng
        x = rng.choice(self.nodes)
        others = [name for name in self.nodes if name != x]
        if not self.made_one(x) or not others:
            return
        labels = []
        for _ in range(rng.choice([1, 2, 2, 3, 4])):
            y = rng.choice(others)
            if rng.random() < 0.9:
                self.say(f"pull {x} {y}")
                labels.append(self.label(y))
                self.say(f"name {labels[-1]} {y}")
            elif self.labels:
                labels.append(rng.choice(self.labels))
        if labels:
            self.say(f"join {x} {','.join(labels)} {self.time()}{self.payload()}")

    def do_fork(self):
        """A forged row of a member on one of its rows, given to some nodes."""
        rng = self.rng
        if not self.forgers:
            return
        member = rng.choice(self.forgers)
        own = self.by_member.get(member, [])
        others = [label for name, labels in self.by_member.items()
                  if name != member for label in labels]
        parents = "- -"
        if own and others and rng.random() < 0.85:
            count = rng.choice([1, 1, 1, 2, 3, 4])
            chosen = ",".join(rng.choice(others) for _ in range(count))
            parents = f"{rng.choice(own)} {chosen}"
        label = self.label(member)
        self.say(f"forge {label} {member} {parents} {self.time()}{self.payload()}")
        for name in rng.sample(self.nodes, rng.randint(1, len(self.nodes))):
            self.say(f"give {name} {label}")
            held = self.node(name).graph.place_by_name
            if self.made_one(name) and self.name(label) in held:
                if rng.random() < 0.5:
                    self.say(f"join {name} {label} {self.time()}")

    def name(self, label):
        """The name of a label's event, or None."""
        try:
            return decode(self.world.labels[label]).name
        except Fault:
            return None

    def do_wrong(self):
        """A forged row with parents that hardly fit."""
        rng = self.rng
        if len(self.labels) < 2 or not self.forgers:
            return
        member = rng.choice(self.forgers)
        own = rng.choice(self.labels)
        count = rng.choice([1, 1, 2, 4])
        others = ",".join(rng.choice(self.labels) for _ in range(count))
        label = self.label()
        self.say(f"forge {label} {member} {own} {others} {self.time()}")
        self.say(f"give {rng.choice(self.nodes)} {label}")

    def do_damage(self):
        """A label's bytes cut or altered, and given."""
        rng = self.rng
        if not self.labels:
            return
        old = rng.choice(self.labels)
        size = len(self.world.labels[old])
        label = self.label()
        if rng.random() < 0.3:
            self.say(f"cut {label} {old} {rng.randint(0, size + 1)}")
        elif rng.random() < 0.2:
            data = self.world.labels[old][:4000] + rng.randbytes(rng.randint(1, 9))
            self.say(f"raw {label} {data.hex()}")
        else:
            at = rng.choice([rng.randint(0, 20), rng.randint(0, size + 2), 3, 6,
                             max(size - 1, 0)])
            mask = rng.choice([1, 2, 3, 8, 128, rng.randint(0, 255)])
            self.say(f"alter {label} {old} {at} {mask}")
        self.say(f"give {rng.choice(self.nodes)} {label}")

    def do_face(self):
        """The next row of one face, shown to a node of its part."""
        rng = self.rng
        part = [name for name in self.nodes if self.made_one(name)]
        if self.face is None or not part:
            return
        x = rng.choice(part)
        side = self.part[x]
        parents = "- -"
        if self.last[side] is not None:
            below = self.label(x)
            self.say(f"name {below} {x}")
            parents = f"{self.last[side]} {below}"
        label = self.label(self.face)
        self.say(f"forge {label} {self.face} {parents} {self.time()}")
        self.say(f"give {x} {label}")
        if self.name(label) in self.node(x).graph.place_by_name:
            self.last[side] = label
            if rng.random() < 0.9:
                self.say(f"join {x} {label} {self.time()}")

    def face_row(self, side, labels):
        """A row of one face on rows of the last layer; its label or None."""
        rng = self.rng
        parents = "- -"
        near = [labels[name] for name in labels
                if self.part[name] == side or self.layer <= self.fork_at]
        if self.last[side] is not None:
            if not near:
                return None
            chosen = rng.sample(near, min(len(near), rng.randint(1, 4)))
            parents = f"{self.last[side]} {','.join(chosen)}"
        label = self.label(self.face)
        self.say(f"forge {label} {self.face} {parents} {self.time()}")
        for name in labels:
            self.say(f"give {name} {label}")
        if self.name(label) in self.node(next(iter(labels))).graph.place_by_name:
            self.last[side] = label
        return self.last[side]

    def faces(self, labels):
        """The rows of the two-faced member that this layer shows, by part.

        It is honest at first.  Then it forks, and later it shows the fork.
        """
        self.layer += 1
        if self.layer < self.fork_at:
            self.last[False] = self.face_row(True, labels)
            return self.last
        if self.layer == self.fork_at or self.rng.random() < 0.6:
            for side in self.sides:
                self.face_row(side, labels)
        return self.last if self.layer >= self.show_at else {}

    def do_layer(self):
        """A row of each node on the rows that most others made just before."""
        rng = self.rng
        nodes = [name for name in self.nodes if self.made_one(name)]
        labels = {}
        for name in nodes:
            for peer in nodes:
                if peer != name:
                    self.say(f"pull {name} {peer}")
            labels[name] = self.label(name)
            self.say(f"name {labels[name]} {name}")
        faces = self.faces(labels) if self.face and len(nodes) > 1 else {}
        for name in nodes:
            chosen = [labels[peer] for peer in nodes
                      if peer != name and rng.random() < self.near]
            if self.mixed:
                rng.shuffle(chosen)
                del chosen[rng.choice([1, 2, 3, 4, 4, 4]):]
            face = faces.get(self.part[name])
            if face and rng.random() < 0.9:
                chosen.insert(0, face)
            if chosen:
                words = ",".join(chosen[:4])
                self.say(f"join {name} {words} {self.time()}{self.payload()}")

    def do_give(self):
        """Any label given to any node, twice at times."""
        if self.labels:
            text = f"give {self.rng.choice(self.nodes)} {self.rng.choice(self.labels)}"
            for _ in range(self.rng.choice([1, 1, 2])):
                self.say(text)

    def do_worker(self):
        """A worker freezes or publishes, or the published block is shown."""
        name, worker = self.rng.choice(self.nodes), self.rng.choice([0, 1, 15])
        self.say(self.rng.choice([f"freeze {name} {worker}", f"kept {name}",
                                  f"publish {name} {worker}"]))

    def do_show(self):
        """A settled block."""
        word = self.rng.choice(["show", "names"])
        self.say(f"{word} {self.rng.choice(self.nodes)}")

    def do_nothing(self):
        """A line without words, or a remark."""
        self.say(self.rng.choice(["", "  \t", "# nothing", "#create A 1"]))

    def fill(self, most_lines=1200):
        """Lines until a node has as many rows as this script is to have."""
        late = self.rng.random() < 0.25
        for _ in self.nodes[1:] if late else self.nodes:
            self.do_create()
        weights = {"do_sync": 55, "do_pull": 5, "do_join": 6, "do_name": 5,
                   "do_fork": self.rng.choice([0, 1, 4]), "do_wrong": 2,
                   "do_damage": 3, "do_give": 3, "do_worker": 5, "do_show": 1,
                   "do_nothing": 1, "do_create": self.rng.choice([0, 1]),
                   "do_late": self.rng.choice([0.2, 1]),
                   "do_face": self.rng.choice([10, 20])}
        if self.faces_only:
            weights = {"do_layer": 60, "do_worker": 2, "do_show": 1, "do_sync": 1}
        elif self.rng.random() < 0.4:
            weights.update(do_sync=1, do_layer=40, do_face=0, do_pull=0)
        weights.update(self.weights)
        while self.rows() < self.most_rows and len(self.lines) < most_lines:
            word = self.rng.choices(list(weights), list(weights.values()))[0]
            getattr(self, word)()
        return self

    def text(self):
        """The bytes of the script."""
        end = "\r\n" if self.rng.random() < 0.1 else "\n"
        text = "".join(line + end for line in self.lines)
        return (text[:-1] if self.rng.random() < 0.1 else text).encode()
