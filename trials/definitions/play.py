"""A run of script lines on the nodes of one process, and its report."""

from event import Fault, name_of, signed_event
from gossip import pull, sync
from ledger import block
from node import Known, Node


def alter(data, at, mask):
    """The bytes with one of them XORed, or as they are past the end."""
    if at >= len(data):
        return data
    return data[:at] + bytes([data[at] ^ mask]) + data[at + 1 :]


class World:
    """A node for each member that has one, with labels and frozen lengths."""

    def __init__(self, members):
        self.members = members
        self.nodes = {number: Node(members, number)
                      for number, member in enumerate(members.list)
                      if member.node}
        self.labels = {}
        self.frozen = {}

    def run(self, lines):
        """Applies the lines and gives the texts that they print."""
        texts = []
        for line in lines:
            printed = getattr(self, "do_" + line.word)(*line.arguments)
            if isinstance(printed, list):
                texts += printed
            elif printed is not None:
                texts.append(f"{line.number} {line.word} {printed}")
        return texts

    def final_blocks(self):
        """The settled block of each node, in member order."""
        return [text for number in self.nodes for text in self.do_show(number)]

    def made(self, node, others, time, payload):
        """What a make prints."""
        try:
            return f"made {self.nodes[node].make(others, time, payload)}"
        except Fault as fault:
            return f"refused {fault.text}"

    def do_create(self, node, time, payload):
        """The first event of a node."""
        return self.made(node, (), time, payload)

    def do_join(self, node, labels, time, payload):
        """An event with the events of the labels as other-parents."""
        others = tuple(name_of(self.labels[label]) for label in labels)
        return self.made(node, others, time, payload)

    def do_sync(self, node, peer, time, payload):
        """A pull and an event."""
        return sync(self.nodes[node], self.nodes[peer], time, payload)

    def do_pull(self, node, peer):
        """A pull alone."""
        taken, refused = pull(self.nodes[node], self.nodes[peer])
        return f"taken {taken} refused {refused}"

    def do_name(self, label, node):
        """A label for the last own row of a node."""
        last = self.nodes[node].last_own()
        self.labels[label] = b"" if last is None else last.spelling

    def do_forge(self, label, member, self_label, other_labels, time, payload):
        """A label for an event that is signed with a member's secret."""
        parent = None
        if self_label is not None:
            parent = name_of(self.labels[self_label])
        others = tuple(name_of(self.labels[o]) for o in other_labels)
        self.labels[label] = signed_event(
            self.members.secret(member), member, parent, others, time, payload)

    def do_raw(self, label, data):
        """A label for any bytes."""
        self.labels[label] = data

    def do_alter(self, label, old, at, mask):
        """A label for another's bytes with one of them changed."""
        self.labels[label] = alter(self.labels[old], at, mask)

    def do_cut(self, label, old, length):
        """A label for the beginning of another's bytes."""
        self.labels[label] = self.labels[old][:length]

    def do_give(self, node, label):
        """A put of a label's bytes."""
        try:
            return f"accepted {self.nodes[node].put(self.labels[label])}"
        except Known as known:
            return f"known {known.place}"
        except Fault as fault:
            return f"refused {fault.text}"

    def do_freeze(self, node, worker):
        """A worker keeps how many rows the node has now."""
        self.frozen[node, worker] = len(self.nodes[node].rows)
        return self.frozen[node, worker]

    def do_publish(self, node, worker):
        """A worker publishes the fame in the rows that it froze."""
        if (node, worker) not in self.frozen:
            return 0
        return self.nodes[node].remark(self.frozen[node, worker])

    def do_kept(self, node):
        """The block of a node as it is published."""
        return block(self.nodes[node])

    def do_show(self, node):
        """The block of a node, settled first."""
        self.nodes[node].settle()
        return block(self.nodes[node])

    def do_names(self, node):
        """The settled block with the names of the ordered rows."""
        self.nodes[node].settle()
        return block(self.nodes[node], names=True)
