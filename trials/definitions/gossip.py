"""How one node takes rows from another."""

from event import Fault
from node import Known


def put_all(taker, events):
    """Puts events in order; the numbers accepted, known and refused."""
    accepted = known = refused = 0
    for data in events:
        try:
            taker.put(data)
            accepted += 1
        except Known:
            known += 1
        except Fault:
            refused += 1
    return accepted, known, refused


def pull(taker, peer):
    """The taker takes the rows that it lacks: numbers taken and refused."""
    held = set(taker.graph.place_by_name)
    taken, _, refused = put_all(taker, peer.lacking(held))
    return taken, refused


def sync(taker, peer, time, payload):
    """A pull, and then a row on the peer's last own one: the printed words."""
    taken, refused = pull(taker, peer)
    last = peer.last_own()
    try:
        if last is None:
            raise Fault("peer-bare")
        made = str(taker.make((last.name,), time, payload))
    except Fault as fault:
        made = f"none {fault.text}"
    return f"taken {taken} refused {refused} made {made}"
