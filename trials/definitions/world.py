"""Made scripts in which some members are dishonest and nodes fall silent.

A script is played as it is made, and the commands on it take that up.
"""

import pickle

import program
from member_files import member_file
from play import World
from script import read_script
from scripts import ScriptMaker

SMALL, LARGE = [2, 3, 3, 4, 4, 4, 5, 5, 6, 7], [8, 9, 10, 11, 12, 13]


def world_file(rng):
    """A member file of two to thirteen members."""
    count = rng.choice(LARGE if rng.random() < 0.1 else SMALL)
    return member_file(rng, count, few_nodes=rng.random() < 0.2)


class WorldMaker(ScriptMaker):
    """Makes a script that forges events of its dishonest members alone.

    They have less than a third of stake, or, `beyond`, at least so much.
    """

    def __init__(self, rng, data, beyond):
        super().__init__(rng, data)
        count = len(self.members.list)
        self.most_rows = rng.randint(20, 70) if count < 8 else rng.randint(60, 100)
        self.everyone = list(self.nodes)
        self.mixed = True
        self.choose_forgers(beyond, rng.choice([0, 0.1, 0.3, 0.6]))
        self.weights = {"do_show": 3, "do_silence": rng.choice([0, 0.3, 3]),
                        "do_fork": rng.choice([8, 20] if beyond else [0, 1, 4, 8])}
        if rng.random() < (0.9 if count > 7 else 0.3):
            self.weights.update(do_sync=1, do_layer=40, do_face=0, do_pull=0)

    def choose_forgers(self, beyond, often):
        """Chooses who is dishonest, among them who shows two faces."""
        members, total = self.members.list, sum(self.members.stakes)
        self.forgers = [self.face] if self.face else []
        weight = sum(m.stake for m in members if m.name in self.forgers)
        for member in self.rng.sample(members, len(members)):
            fits = 3 * (weight + member.stake) < total
            if member.name in self.forgers or 3 * weight >= total:
                continue
            if fits and (beyond or self.rng.random() < often) or not fits and beyond:
                self.forgers.append(member.name)
                weight += member.stake

    def do_silence(self):
        """Only some nodes do anything from now on, or all."""
        size = self.rng.randint(1, len(self.everyone))
        self.nodes = self.everyone
        if self.rng.random() < 0.6:
            self.nodes = self.rng.sample(self.everyone, size)

    def fill(self, most_lines=2000):
        """As all scripts, and then each node shows its order."""
        super().fill(most_lines)
        self.nodes = self.everyone
        for number in self.world.nodes:
            self.say(f"names {self.members.list[number].name}")
        return self

    def text(self):
        """The bytes of a script whose last line ends well."""
        return super().text().removesuffix(b"\r")


class Nodes(dict):
    """Nodes that are copied out of their bytes when they are asked for."""

    def __getitem__(self, number):
        node = super().__getitem__(number)
        if isinstance(node, bytes):
            node = self[number] = pickle.loads(node)
        return node


class Remembered(World):
    """A world that takes up what a maker has played."""

    script, lines, texts, nodes = b"", (), [], {}

    @classmethod
    def remember(cls, maker, script):
        """Takes up the maker's lines, what they print and its nodes."""
        cls.script, cls.lines, cls.texts = script, maker.played, maker.texts
        cls.nodes = {number: pickle.dumps(node)
                     for number, node in maker.world.nodes.items()}

    def run(self, lines):
        """As every world, but for the lines that are remembered."""
        if lines is not Remembered.lines:
            return super().run(lines)
        self.nodes = Nodes(Remembered.nodes)
        return Remembered.texts


def read(data, members, workers=0):
    """The lines of a script, or those that are remembered."""
    if data == Remembered.script and not workers:
        return Remembered.lines
    return read_script(data, members, workers)


program.World, program.read_script = Remembered, read
