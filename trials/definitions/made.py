"""Members and a script that are made from a number, and their summary."""

from event import name_of
from ledger import first_line
from members import Member, Members


def draws(seed):
    """The numbers that follow a seed."""
    state = seed
    while True:
        state = (state * 6364136223846793005 + 1442695040888963407) % 2**64
        yield state >> 32


def made_input(seed, count, length):
    """The members and the script of a seed."""
    members = Members(10, tuple(
        Member(f"m{i}", seed.to_bytes(8, "big") + i.to_bytes(8, "big"),
               1000, True, 1) for i in range(count)))
    draw = draws(seed)
    lines = []
    for j in range(length):
        if j < count:
            lines.append(f"create m{j} {j + 1}\n")
            continue
        a, b = next(draw) % count, next(draw) % (count - 1)
        given, receiver = next(draw) % 20, next(draw) % count
        peer = b if b < a else b + 1
        lines.append(f"sync m{a} m{peer} {j + 1} pay:m{receiver}={given}\n")
    return members, "".join(lines).encode()


def summary(world):
    """What the command for made input prints of each node."""
    texts = []
    for node in world.nodes.values():
        node.settle()
        order = b"".join(node.rows[place].name for place, _, _ in node.kept())
        total = sum(member.balance for member in world.members.list)
        texts += [first_line(node), f"order {name_of(order).hex()}",
                  f"total {total}"]
    return texts
