"""A relay: a kept node that gossips with one peer over two streams.

What it does is told in the program's own first lines and in its contract.
"""

import messages
from certificate import certificate
from event import Fault
from gossip import put_all
from ledger import block
from program import Program, Stop, kept_row, text_of

GREATEST = 2**64 - 1


class Relay(Program):
    """One run of a relay; `heard` is what its peer has still to say."""

    def __init__(self, store, heard):
        super().__init__(store)
        self.heard = heard
        self.said = b""

    def hear(self, wanted):
        """The items of the peer's next message."""
        try:
            items, length = messages.first_message(self.heard, wanted)
        except Fault as fault:
            raise Stop(10, f"wire: {fault.text}") from None
        self.heard = self.heard[length:]
        return items

    def learn(self, stored, time):
        """Asks, puts what is answered, and makes the next row."""
        self.said += messages.have_message(stored.node.tips())
        put_all(stored, self.hear(messages.ROWS))
        kept_row(stored, time)

    def serve(self, stored):
        """Answers what the peer asks."""
        names = self.hear(messages.HAVE)
        last = stored.node.last_own()
        self.said += messages.rows_message(stored.node.beyond(names),
                                           last and last.name)

    def exchange(self, stored, command, time):
        """One exchange: the one that asks first serves then."""
        if command == "serve":
            self.serve(stored)
        self.learn(stored, time)
        if command == "ask":
            self.serve(stored)

    def gossip(self, command, options):
        """All exchanges; then the block and the certificate are written."""
        members = self.members(options)
        stored = self.stored(members, self.own(members, options), options)
        try:
            for count in range(int(options["exchanges"])):
                time = min(int(options["time"]) + count, GREATEST)
                self.exchange(stored, command, time)
            stored.remark(len(stored.node.rows))
        finally:
            self.store.write(options["disk"], bytes(stored.file))
        self.store.write(options["block"], text_of(block(stored.node)))
        self.store.write(options["proof"], certificate(stored.node))


def relay(words, store, heard):
    """The status, what is said to the peer and what goes to the errors."""
    run = Relay(store, heard)
    names = [word.removeprefix("--") for word in words[1::2]]
    try:
        run.gossip(words[0], dict(zip(names, words[2::2])))
    except Stop as stop:
        return stop.status, run.said, f"hashgraph: {stop.text}\n".encode()
    return 0, run.said, b""
