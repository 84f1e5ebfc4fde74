"""Transfers, balances and the printed block of a node."""


def read_transfers(payload):
    """The transfers of a payload, or None where it is of another form."""
    if not payload or payload[0] > 64 or len(payload) != 1 + 10 * payload[0]:
        return None
    return [(int.from_bytes(payload[at : at + 2], "big"),
             int.from_bytes(payload[at + 2 : at + 10], "big"))
            for at in range(1, len(payload), 10)]


def pay(balances, payer, transfers):
    """Does the transfers that can be done; gives how many that were."""
    done = 0
    for receiver, amount in transfers:
        if receiver < len(balances) and balances[payer] >= amount:
            balances[payer] -= amount
            balances[receiver] += amount
            done += 1
    return done


def effect(balances, row):
    """Carries out the payload of a row, and gives the printed effect."""
    if not row.payload:
        return "-"
    transfers = read_transfers(row.payload)
    if transfers is None:
        return "unread"
    done = pay(balances, row.creator, transfers)
    return f"paid {done} of {len(transfers)}"


def first_line(node):
    """The first line of a node's block."""
    graph, length = node.graph, len(node.rows)
    name = node.members.list[node.own].name
    return (f"node {name} events {length} forkers {len(graph.forkers())} "
            f"round {graph.greatest(length)} "
            f"closed {graph.closed(node.marks, length)} "
            f"ordered {len(node.kept())}")


def block(node, names=False):
    """The lines of a node's block, by its published marks."""
    members = node.members.list
    balances = [member.balance for member in members]
    texts = [first_line(node)]
    for count, (place, round_, time) in enumerate(node.kept(), 1):
        row = node.rows[place]
        sequence = node.graph.self_ancestors[place].bit_count() - 1
        text = (f"{count} {members[row.creator].name} {sequence} "
                f"round {round_} time {time} {effect(balances, row)}")
        texts.append(text + (f" {row.name.hex()}" if names else ""))
    return texts + [f"balance {member.name} {balance}"
                    for member, balance in zip(members, balances)]
