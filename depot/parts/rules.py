"""Document 01, with document 02's landed requests (A1, A2, A4, A5, A7, A8, A12), once more, in Python and from the papers alone: what a
collector answers to each event, and what its medium then is.

A run's log is held to it event by event, so that what the guest does not notice (a residue, a halt, an answer to a request
that Linux ignores) is looked at too. Only what a bus and a hand at the switches can bring is here: the refusals 10 to 18 are not.
"""
import struct

from .blocks import BLOCK
from .replies import CONFIGURATION, INQUIRY, LANGUAGES, capacity, device_descriptor, fixed_sense, mode_sense, product_pages, serial, utf16

PACKET = 64
NO_SENSE, INVALID_CODE, INVALID_FIELD, PHASE_SENSE = (0, 0, 0), (5, 0x20, 0), (5, 0x24, 0), (0x0B, 0x4B, 0)
WRITE_PROTECTED = (7, 0x27, 0)  # document 02, A4
PASSED, FAILED, PHASE_ERROR = 0, 1, 2
BLOCK_LENGTHS = {0x00: 6, 0x03: 6, 0x12: 6, 0x1A: 6, 0x1E: 6, 0x25: 10, 0x28: 10, 0x2A: 10, 0x2F: 10}
REFUSED_CONTROL_BITS = 0x07  # document 02, A12: bits 0 (LINK), 1 and 2 (NACA)


def control_byte(block):
    """The last byte of a known command, by its code's own length; 0 for an unknown code, which has none."""
    length = BLOCK_LENGTHS.get(block[0])
    return block[length - 1] if length else 0


def allocation_length(block):
    """The most that codes 03, 12 and 1A may send: byte 4, but for Inquiry bytes 3 and 4, big endian (document 02, A1)."""
    return block[3] << 8 | block[4] if block[0] == 0x12 else block[4]


def page_code(block):
    """The product page that a command asks for: byte 2 of an Inquiry with byte 1 bit 0, EVPD, set (document 02, A2); None of others."""
    return block[2] if block[0] == 0x12 and block[1] & 1 else None


def out_of_range(address, blocks):
    """A range failure's sense, with the first block outside the unit (document 02, A8). It is a part of the sense, and goes with it."""
    return 5, 0x21, 0, max(address, blocks)


class Unit:
    """A logical unit (document 02, A7): its part of the medium, by its first block there and its size; its own sense and switch."""

    def __init__(self, first, blocks):
        self.first, self.blocks, self.sense, self.closed = first, blocks, NO_SENSE, False


def table(sizes):
    """Units of these sizes, the part of each behind the one before it."""
    return [Unit(sum(sizes[:number]), blocks) for number, blocks in enumerate(sizes)]


class Collector:
    """`due` is what the bulk pipes wait for: "wrapper", "out", "in" or "status"; `unit` is that of the command in hand.

    `sizes` are the units' numbers of blocks. The medium given (Blocks) is copied.
    """

    def __init__(self, number, vendor, product, release, medium, sizes):
        self.medium, self.units = medium.copy(), table(sizes)
        self.descriptors = {
            (0x0100, 0): device_descriptor(vendor, product, release), (0x0200, 0): CONFIGURATION, (0x0300, 0): LANGUAGES,
            (0x0301, 0x0409): utf16("COLLECT"), (0x0302, 0x0409): utf16("METER EXPORT"), (0x0303, 0x0409): utf16(serial(number)),
        }
        self.pages = product_pages(number)
        self.bus_reset()

    def event(self, kind, body):
        """An event by the kind that a recording gives it: the answer's word, and its bytes."""
        match kind:
            case 1:
                return self.bus_reset()
            case 2:
                return self.control(body)
            case 3:
                return self.bulk_out(body)
            case 4:
                return self.bulk_in()
        return self.turn(body)

    def turn(self, body):
        """A switch (document 02, A4): its position, and its unit (A7). A command under way keeps what it found at its wrapper: a Write's
        place, Mode Sense's reply. No reset moves a switch."""
        position, unit = body
        self.units[unit].closed = position == 1
        return "ack", b""

    # Control

    def bus_reset(self):
        self.address = self.configuration = 0
        self.halted = {0x81: False, 0x02: False}
        self.drop()
        return "ack", b""

    def drop(self):
        """The command is dropped, and the senses of all units with it (document 02, A7)."""
        self.due, self.locked, self.part = "wrapper", False, b""
        for unit in self.units:
            unit.sense = NO_SENSE

    def control(self, setup):
        kind, request, value, index, length = struct.unpack("<BBHHH", setup)
        data = lambda *octets: ("data", bytes(octets))
        ack, configured = ("ack", b""), self.configuration == 1
        match (kind, request, value, index, length):
            case (0x00, 0x05, address, 0, 0) if address <= 0x7F and not configured:
                self.address = address
                return ack
            case (0x00, 0x09, 0 | 1, 0, 0):
                self.configuration = value
                self.halted = {0x81: False, 0x02: False}
                self.drop()
                return ack
            case (0x80, 0x08, 0, 0, 1):
                return data(self.configuration)
            case (0x80, 0x00, 0, 0, 2):
                return data(1, 0)
            case (0x81, 0x00, 0, 0, 2) if configured:
                return data(0, 0)
            case (0x82, 0x00, 0, 0x00 | 0x80, 2):
                return data(0, 0)
            case (0x82, 0x00, 0, 0x81 | 0x02, 2) if configured:
                return data(int(self.halted[index]), 0)
            case (0x02, 0x01, 0, 0x00 | 0x80, 0):
                return ack
            case (0x02, 0x01 | 0x03, 0, 0x81 | 0x02, 0) if configured:
                self.halted[index] = self.locked or request == 0x03
                return ack
            case (0x21, 0xFF, 0, 0, 0) if configured:
                self.drop()
                return ack
            case (0xA1, 0xFE, 0, 0, 1) if configured:
                return data(len(self.units) - 1)
            case (0x80, 0x06, _, _, _) if (value, index) in self.descriptors:
                return "data", self.descriptors[value, index][:length]
        return "stall", b""

    # Bulk

    def bulk_out(self, packet):
        if not self.configuration:
            return "silent", b""
        if self.halted[0x02]:
            return "stall", b""
        if self.due == "wrapper":
            if not self.accepts(packet):
                self.lock()
                return "stall", b""
            self.begin(packet)
        elif self.due == "out":
            self.take(packet)
        else:
            return "nak", b""
        return "ack", b""

    def bulk_in(self):
        if not self.configuration:
            return "silent", b""
        if self.halted[0x81]:
            return "stall", b""
        if self.due == "in":
            sent, self.reply = self.reply[:PACKET], self.reply[PACKET:]
            self.residue -= len(sent)
            if not self.reply:
                self.finish(PASSED)
            return "data", sent
        if self.due == "status":
            self.due = "wrapper"
            if self.status == PHASE_ERROR:
                self.lock()
            return "data", b"USBS" + struct.pack("<IIB", self.tag, self.residue, self.status)
        return "nak", b""

    def lock(self):
        self.locked, self.halted = True, {0x81: True, 0x02: True}

    def accepts(self, packet):
        """A unit beyond the table is not accepted; with bits 4 to 7 of its byte set the wrapper is not even readable."""
        if len(packet) != 31 or packet[:4] != b"USBC":
            return False
        flags, unit, length = packet[12:15]
        return not flags & 0x7F and unit < len(self.units) and 1 <= length <= 16 and length >= BLOCK_LENGTHS.get(packet[15], 1)

    def begin(self, packet):
        """The thirteen meetings. `way` is the host's direction, "" where it announces nothing."""
        self.tag, self.announced, flags, unit = struct.unpack_from("<IIBB", packet, 4)
        self.unit = self.units[unit]
        self.way = "" if self.announced == 0 else "in" if flags & 0x80 else "out"
        self.residue = self.announced
        sense, way, length, source = self.decide(packet[15:])
        if way and (way != self.way or length > self.announced):
            self.finish(PHASE_ERROR)
            return
        self.unit.sense = sense
        if not way:
            self.finish(PASSED if sense == NO_SENSE else FAILED)
        elif way == "in":
            self.due, self.reply = "in", source
        else:
            self.due, self.place, self.left, self.part = "out", source, length, b""

    def finish(self, status):
        """The data is done; where the host announced more, its pipe halts."""
        self.due, self.status = "status", status
        if self.residue:
            self.halted[0x81 if self.way == "in" else 0x02] = True

    def take(self, packet):
        if len(packet) != PACKET:
            self.part, self.unit.sense = b"", PHASE_SENSE
            self.halted[0x02] = True
            self.due, self.status = "status", PHASE_ERROR
            return
        self.part += packet
        if len(self.part) == BLOCK:
            self.medium.put(self.unit.first + self.place, self.part)
            self.place, self.left, self.residue, self.part = self.place + 1, self.left - BLOCK, self.residue - BLOCK, b""
            if not self.left:
                self.finish(PASSED)

    # Commands

    def inquiry(self, block):
        """What an Inquiry is about, before it is cut: a product page (document 02, A2) or standard data. None where a field is bad."""
        page = page_code(block)
        if page is not None:
            return self.pages.get(page)
        return INQUIRY if block[2] == 0 else None

    def decide(self, block):
        """The sense that a command block leaves in its unit, the direction of its data ("" for none), their length, and their bytes or
        the first block, of the unit, that they go to."""
        code, none, unit = block[0], ("", 0, None), self.unit
        address, count = struct.unpack_from(">IxH", block, 2)
        given = lambda good, data: (NO_SENSE, *data) if good else (INVALID_FIELD, *none)
        sent = lambda reply: ("in", len(reply), reply) if reply else none
        cut = lambda reply: sent(reply[:allocation_length(block)])
        if control_byte(block) & REFUSED_CONTROL_BITS:
            return INVALID_FIELD, *none
        match code:
            case 0x00:
                return given(True, none)
            case 0x03:
                return given(not block[1] & 1, cut(fixed_sense(*unit.sense)))
            case 0x12:
                reply = self.inquiry(block)
                return given(reply is not None, cut(reply or b""))
            case 0x1A:
                return given(block[2] == 0x3F, cut(mode_sense(unit.closed)))
            case 0x1E:
                return given(not block[4] & 1, none)
            case 0x25:
                return given(True, sent(capacity(unit.blocks)))
            case 0x28 | 0x2A | 0x2F:
                if block[1] & (0xE2 if code == 0x2F else 0xE0):
                    return INVALID_FIELD, *none
                if address + count > unit.blocks:
                    return out_of_range(address, unit.blocks), *none
                if code == 0x2A and unit.closed:
                    return WRITE_PROTECTED, *none
                if code == 0x2F or not count:
                    return NO_SENSE, *none
                return NO_SENSE, *(sent(self.medium.get(unit.first + address, count)) if code == 0x28 else ("out", count * BLOCK, address))
        return INVALID_CODE, *none
