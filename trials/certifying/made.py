"""Worlds for certificates: those of trials/hostile, in which members also have stakes and join below several others' events."""

from hostile.dealers import Apart, DoubleDealing
from hostile.world import World


class Staked:
    """The member file with stakes, and lines that join below one to four events."""

    def members(self):
        draw = self.draw
        stake = draw.choice((lambda: 1, lambda: draw.randint(1, 9), lambda: draw.choice((1, 1, 1000)), lambda: 2**32 - 1))
        text = super().members()
        return "".join(f"{line}stake = {stake()}\n" if line.startswith("balance") else line for line in text.splitlines(True))

    def line_join(self):
        takers, count = [member for member in self.nodes if member in self.created], self.draw.choice((1, 2, 2, 3, 4))
        labels = [label for label in (self.old_label() for _ in range(count)) if label]
        if takers and labels:
            taker = self.draw.choice(takers)
            for label in labels:
                self.say("give", self.names[taker], label.name)
            self.say("join", self.names[taker], ",".join(label.name for label in labels), self.time(), self.payload())
            self.line_name(taker)


class Mixed(Staked, World):
    """Bad networks, forks and damaged events."""


class Dealt(Staked, DoubleDealing):
    """Members without honesty who play another game in each half."""


class Late(Staked, Apart):
    """Members who are silent for long, so that their witnesses come late."""


def world_of(seed):
    """At the end of most all gossip for a while, so that more has an order."""
    world = (Mixed, Late, Dealt, Mixed)[seed % 4](f"proofs {seed}")
    for _ in range(world.draw.choice((0, 2, 4, 8))):
        world.line_gossip()
    return world
