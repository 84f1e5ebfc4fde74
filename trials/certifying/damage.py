"""Damaged certificates: of bytes, rows and entries, some signed anew by the members' secrets."""

from certificate import read_form
from damaged_files import certificate_of
from event import signed_event


def signed(members, creator, parents, time):
    """An event of this creator, who need be no member."""
    return signed_event(members.secret(creator), creator, parents[0] if parents else None, parents[1:], time, b"")


class Damages:
    """What may be done to a certificate, each by chance."""

    def __init__(self, draw, members, data):
        self.draw, self.members, self.data = draw, members, data
        self.rows, self.order = read_form(data)
        self.bytes = [row.spelling for row in self.rows]

    def one(self):
        kinds = [name for name in dir(self) if name.startswith("do_")]
        return getattr(self, self.draw.choice(kinds))()

    def place(self):
        return self.draw.randrange(len(self.rows) + 1)

    def with_rows(self, rows):
        return certificate_of(rows, self.order)

    def do_byte(self):
        at = self.draw.randrange(len(self.data))
        return self.data[:at] + bytes([self.data[at] ^ self.draw.choice((1, 128, 255))]) + self.data[at + 1:]

    def do_cut(self):
        return self.data[:self.draw.randrange(len(self.data))]

    def do_trail(self):
        return self.data + self.draw.randbytes(self.draw.choice((1, 16)))

    def do_repeat(self):
        at = self.place()
        return self.with_rows(self.bytes[:at] + self.bytes[:1] + self.bytes[at:])

    def do_leave_out(self):
        at = self.place()
        return self.with_rows(self.bytes[:at] + self.bytes[at + 1:])

    def do_swap(self):
        at = self.place()
        return self.with_rows(self.bytes[:at] + self.bytes[at:at + 2][::-1] + self.bytes[at + 2:])

    def do_shorter(self):
        return self.with_rows(self.bytes[:self.place()])

    def do_sign_anew(self):
        """A row by some member on some rows, wherever they stand, at a place by chance."""
        names = [row.name for row in self.rows]
        count = self.draw.choice((0, 2, 2, 2, 3, 5)) if names else 0
        own = [row.name for row in self.rows if row.creator == 0] or names
        creator = self.draw.choice((0, 0, self.draw.randrange(len(self.members.stakes) + 1)))
        parents = [self.draw.choice(own), *(self.draw.choice(names) for _ in range(count - 1))] if count else []
        event, at = signed(self.members, creator, parents, self.draw.randrange(2**64)), self.place()
        return self.with_rows(self.bytes[:at] + [event] + self.bytes[at:])

    def do_more_forks(self):
        """First events behind the rows, one by each of some members."""
        forks = [signed(self.members, member, [], self.draw.randrange(2**64)) for member in range(len(self.members.stakes))]
        return self.with_rows(self.bytes + forks[:self.draw.randrange(len(forks)) + 1])

    def do_entry(self):
        order = [list(entry) for entry in self.order]
        if order:
            entry, field = self.draw.choice(order), self.draw.randrange(3)
            entry[field] ^= self.draw.choice((1, 2, 256))
        return certificate_of(self.bytes, order)

    def do_fewer_entries(self):
        return certificate_of(self.bytes, self.order[:self.draw.randrange(len(self.order) + 1)])

    def do_more_entries(self):
        return certificate_of(self.bytes, self.order + [self.order[-1] if self.order else (0, 1, 1)])

    def do_swap_entries(self):
        order = list(self.order)
        if len(order) > 1:
            at = self.draw.randrange(len(order) - 1)
            order[at], order[at + 1] = order[at + 1], order[at]
        return certificate_of(self.bytes, order)

    def do_count(self):
        at = 4 if self.draw.random() < 0.5 else len(self.data) - 16 * len(self.order) - 4
        count = self.draw.choice((0, 1, 1_048_576, 1_048_577, 2**32 - 1))
        return self.data[:at] + count.to_bytes(4, "big") + self.data[at + 4:]
