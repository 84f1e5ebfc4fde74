"""The page: page.html with what there is to draw put in, as JSON."""

import json
import os

from .events import read_transfers

TEMPLATE = os.path.join(os.path.dirname(os.path.realpath(__file__)), "page.html")
DATA = "@DATA@"


def page_of(play, count):
    with open(TEMPLATE, encoding="utf-8") as file:
        template = file.read()
    # No `<` stands in the JSON, so that no text of a script can end the element that it stands in.
    return template.replace(DATA, json.dumps(data_of(play, count), separators=(",", ":")).replace("<", "\\u003c"))


def data_of(play, count):
    """What there is to draw, of `count` lines that were given. Times and amounts are texts, since the page's numbers have
    53 bits."""
    printed = {}
    for line, text in play.report:
        printed.setdefault(line, []).append(text)
    labels = {}
    for line, label, data in play.label_lines:
        labels.setdefault(data, []).append([line, label])
    return {
        "kind": play.kind,
        "step": play.step,
        "members": [{"name": m.name, "balance": str(m.balance), "stake": m.stake} for m in play.members.all],
        "coin": play.members.coin,
        "script": play.script,
        "given": count,
        "costs": play.costs,
        "end": play.end,
        "printed": printed,
        "compared": len(play.report),
        "events": [event_data(event, play.members, labels) for event in play.web.events],
        "nodes": {name: node_data(node) for name, node in play.nodes.items()},
    }


def event_data(event, members, labels):
    return {
        "creator": event.creator,
        "sequence": event.sequence,
        "round": event.round,
        "witness": event.witness,
        "parents": [parent.index for parent in event.parents],
        "time": str(event.time),
        "payload": event.payload.hex(),
        "transfers": transfers_data(event, members),
        "name": event.name.hex(),
        "bit": int(event.middle_bit()),
        "voters": [w.index for w in event.voters],
        "votes": [[x.index, vote.value, vote.decides, vote.by_bit] for x, vote in event.votes.items()],
        "labels": labels.get(event.data, []),
    }


def transfers_data(event, members):
    transfers = read_transfers(event.payload)
    if transfers is None:
        return None
    return [[members.all[to].name if to < members.n else f"#{to}", str(amount)] for to, amount in transfers]


def node_data(node):
    """What the node has, each with the line since when: nothing of it is ever taken back."""
    return {
        "rows": [event.index for event in node.rows],
        "lines": node.lines,
        "forkers": [[member, line] for member, line in node.forked_since.items()],
        "froze": node.froze,
        "marks": [[node.place(x), mark.value, mark.line, node.published[x].line] for x, mark in node.found.items()],
        "rounds": [[line, kept_line, [node.place(w) for w in unique]]
                   for (line, unique), (kept_line, _) in zip(node.decided.rounds, node.kept.rounds)],
        "order": [[node.place(row.event), row.received, str(row.time), row.line, kept.line, row.effect(), row.done,
                   [[member, str(balance)] for member, balance in row.changed.items()]]
                  for row, kept in zip(node.decided.order, node.kept.order)],
    }
