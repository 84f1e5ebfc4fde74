"""The table: a line for each node and each event of its graph at the end, its fields apart by tabs."""

HEAD = ("node", "place", "name", "creator", "parents", "round", "witness", "fame", "decider", "received", "time")
NONE = "-"


def table_of(play):
    lines = [HEAD]
    for name, node in play.nodes.items():
        placed = {row.event: row for row in node.decided.order}
        lines += [(name, *fields_of(play.members, node, placed.get(event), event)) for event in node.rows]
    return "".join("\t".join(map(str, line)) + "\n" for line in lines)


def fields_of(members, node, placed, event):
    """What the node knows of the event; `placed` is its place in the order, if it has one."""
    mark = node.found.get(event)
    return (
        node.place(event),
        event.name.hex(),
        members.all[event.creator].name,
        " ".join(str(node.place(parent)) for parent in event.parents) or NONE,
        event.round,
        truth(event.witness),
        NONE if not event.witness else truth(mark.value) if mark else "open",
        node.place(mark.by) if mark else NONE,
        placed.received if placed else NONE,
        placed.time if placed else NONE,
    )


def truth(value):
    return "yes" if value else "no"
