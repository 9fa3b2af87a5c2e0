"""The accountant of document 02, A13. It is fed the events and their answers, with the bytes handed out, and nothing of the device.

"Between two command drops, status wrappers handed out carry the tags of the accepted command wrappers, in order, and number as many or one
fewer. In each, announced length less residue equals the bytes counted from the history: data-in bytes handed out since its command, or 512
for each block whose bytes all arrived. A command cut by a drop has no status."

What lies between two drops is a book, with a row a command. All of this holds after every event, so that a row that was once out of balance stays so.
"""
import struct

import names

BLOCK, PACKET, WRAPPER, STATUS_WRAPPER = 512, 64, 31, 13
RESET, CONTROL, BULK_OUT, BULK_IN, SWITCH = 1, 2, 3, 4, 5  # the kinds of events in a recording
DROPS = [b"\x00\x09\x00" + bytes(5), b"\x00\x09\x01" + bytes(5), b"\x21\xFF" + bytes(6)]  # Set Configuration, Mass Storage Reset


def drop(kind, body):
    """The name of the command drop that an acked event is; None where it is none."""
    if kind == RESET:
        return "bus reset"
    return names.request(body) if kind == CONTROL and body in DROPS else None


def is_wrapper(packet):
    return len(packet) == WRAPPER and packet[:4] == b"USBC"


class Tally:
    """Document 01, "Words of demand 3", as far as bytes go: how many blocks are left of the write under way, and how many bytes it holds.

    `sizes` are the units' numbers of blocks, `closed` the units whose write switch is (document 02, A4 and A7).
    """

    def __init__(self, sizes):
        self.sizes, self.closed = sizes, set()
        self.end()

    def end(self):
        self.left = 0

    def turn(self, position, unit):
        (self.closed.add if position else self.closed.discard)(unit)

    def begin(self, wrapper):
        """A write begins "exactly if it is a Write that passes its checks, count over 0, announcing out at least 512 bytes a block"."""
        announced, flags, unit = struct.unpack_from("<IBB", wrapper, 8)
        code, bits, first, count, control = struct.unpack_from(">BBIxHB", wrapper, 15)
        fields = code == 0x2A and not bits & 0xE0 and not control & 0x07  # document 02, A12
        passes = fields and unit < len(self.sizes) and first + count <= self.sizes[unit] and unit not in self.closed
        self.left, self.held = count if passes and not flags & 0x80 and announced >= BLOCK * count else 0, 0

    def take(self, packet):
        """How many bytes have arrived with this packet: those of a block, or none."""
        if len(packet) != PACKET:
            self.end()
            return 0
        self.held += PACKET
        if self.held < BLOCK:
            return 0
        self.left, self.held = self.left - 1, 0
        return BLOCK


class Row:
    """A command, and what came for it. `at` is where, in the caller's words; `status` is tag, residue and number; `fault` says why the row is
    out of balance. A status and bytes that no command stands before have a row too, without a wrapper."""

    def __init__(self, at, wrapper=None):
        self.at, self.wrapper, self.counted, self.status, self.fault = at, wrapper, 0, None, ""
        self.tag, self.announced = struct.unpack_from("<II", wrapper, 4) if wrapper else (None, 0)

    def blame(self, fault):
        self.fault = self.fault or fault

    def count(self, octets):
        self.counted += octets
        self.judge()

    def close(self, status):
        self.status = status
        self.judge()

    def judge(self):
        if self.status is None:
            return
        tag, residue, _ = self.status
        if self.wrapper is None:
            self.blame("a status without a command")
        elif tag != self.tag:
            self.blame("the status has tag %X" % tag)
        elif self.announced != residue + self.counted:
            self.blame("%d announced, %d counted, residue %d" % (self.announced, self.counted, residue))


class Book:
    """The rows between two drops. `latest` is the latest command's; `ended` is the drop behind them, None of the last book, and `at` where it was."""

    def __init__(self):
        self.rows, self.latest, self.ended, self.at = [], None, None, None

    def add(self, row):
        self.rows.append(row)
        return row


class Accounts:
    """The books of one collector, of units of these sizes; the last one is open."""

    def __init__(self, sizes):
        self.tally, self.books = Tally(sizes), [Book()]

    def event(self, at, kind, body, word, data):
        """An event and its answer: the word as it is printed, and its bytes."""
        if kind == BULK_IN and word == "data" and data:
            self.handed_out(at, data)
        if word != "ack":
            return
        if kind == BULK_OUT:
            self.taken(at, body)
        elif kind == SWITCH:
            self.tally.turn(*body)
        elif drop(kind, body):
            self.tally.end()
            self.books[-1].ended, self.books[-1].at = drop(kind, body), at
            self.books.append(Book())

    def taken(self, at, packet):
        """An acked bulk-out packet is a command wrapper where no write is under way."""
        book = self.books[-1]
        if self.tally.left:
            book.latest.count(self.tally.take(packet))
        elif is_wrapper(packet):
            if book.latest and not book.latest.status:
                book.latest.blame("no status before the next command")
            book.latest = book.add(Row(at, packet))
            self.tally.begin(packet)
        else:
            book.add(Row(at)).blame("a packet of %d bytes taken for a command" % len(packet))

    def handed_out(self, at, data):
        book = self.books[-1]
        if len(data) == STATUS_WRAPPER and data[:4] == b"USBS":
            row = book.latest if book.latest and not book.latest.status else book.add(Row(at))
            row.close(struct.unpack_from("<IIB", data, 4))
        elif book.latest:
            book.latest.count(len(data))
        else:
            book.add(Row(at)).blame("%d bytes without a command" % len(data))

    # What the books come to

    def rows(self):
        return [row for book in self.books for row in book.rows]

    def commands(self):
        return [row for row in self.rows() if row.wrapper]

    def statuses(self):
        return [row for row in self.rows() if row.status]

    def cut(self):
        """The commands that a drop came before the status of."""
        return [book.latest for book in self.books if book.ended and book.latest and not book.latest.status]

    def drops(self):
        return [book for book in self.books if book.ended]

    def faults(self):
        return [row for row in self.rows() if row.fault]


def kept(history, sizes):
    """The accounts of a history, of pairs of event and answer, whose events are numbered from 1."""
    accounts = Accounts(sizes)
    for number, ((kind, body), (word, data)) in enumerate(history, 1):
        accounts.event(number, kind, body, word, data)
    return accounts
