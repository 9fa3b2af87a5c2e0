"""A log of events in words: requests, wrappers and replies by name, runs of data packets on one line."""
import struct

from . import log
from .rules import allocation_length, control_byte, page_code

REQUESTS = {
    (0x00, 0x05): "Set Address", (0x00, 0x09): "Set Configuration", (0x80, 0x08): "Get Configuration",
    (0x80, 0x00): "Get Status, device", (0x81, 0x00): "Get Status, interface", (0x82, 0x00): "Get Status, endpoint",
    (0x02, 0x01): "Clear Feature, halt of", (0x02, 0x03): "Set Feature, halt of",
    (0x21, 0xFF): "Mass Storage Reset", (0xA1, 0xFE): "Get Max LUN", (0x80, 0x06): "Get Descriptor",
}
DESCRIPTORS = {
    0x0100: "device", 0x0200: "configuration", 0x0300: "languages", 0x0301: "vendor", 0x0302: "product", 0x0303: "serial number",
    0x0600: "device qualifier",
}
COMMANDS = {
    0x00: "Test Unit Ready", 0x03: "Request Sense", 0x12: "Inquiry", 0x1A: "Mode Sense", 0x1E: "Prevent/Allow",
    0x25: "Read Capacity", 0x28: "Read", 0x2A: "Write", 0x2F: "Verify", 0x35: "Synchronize Cache", 0xA3: "Maintenance In",
}
STATUS = {0: "passed", 1: "failed", 2: "phase error"}


def request(setup):
    kind, code, value, index, length = struct.unpack("<BBHHH", setup)
    name = REQUESTS.get((kind, code), "request %02X %02X" % (kind, code))
    if (kind, code) == (0x80, 0x06):
        return "%s, %s, %d bytes" % (name, DESCRIPTORS.get(value, "%04X" % value), length)
    if kind == 0x00:
        return "%s %d" % (name, value)
    return name + (" %02X" % index if kind & 0x1F == 2 else "")


def command(block):
    name = COMMANDS.get(block[0], "code %02X" % block[0])
    if block[0] in (0x28, 0x2A, 0x2F):
        first, count = struct.unpack_from(">IxH", block, 2)
        name = "%s block %d count %d" % (name, first, count)
    elif block[0] in (0x03, 0x12, 0x1A):
        page = page_code(block)
        name += "" if page is None else " page %02X" % page
        name = "%s, allocation length %d" % (name, allocation_length(block))
    control = control_byte(block)
    return name + (", control byte %02X" % control if control else "")


def is_cbw(packet):
    return len(packet) == 31 and packet[:4] == b"USBC"


def is_csw(data):
    return len(data) == 13 and data[:4] == b"USBS"


def cbw(packet):
    tag, length, flags, unit = struct.unpack_from("<IIBB", packet, 4)
    announced = "no data" if not length else "%d bytes %s" % (length, "in" if flags & 0x80 else "out")
    return "CBW %X%s: %s, %s" % (tag, " for unit %d" % unit if unit else "", command(packet[15:]), announced)


def csw(data):
    tag, residue, status = struct.unpack_from("<IIB", data, 4)
    return "CSW %X: %s, residue %d" % (tag, STATUS.get(status, "status %d" % status), residue)


def page_reply(code, data):
    """A product page as it came, whole or cut (document 02, A2): what stands behind its head, of four bytes or, with page 83's, eight."""
    head = {0x80: 4, 0x83: 8}.get(code, len(data))
    behind = ' "%s"' % data[head:].decode("ascii", "replace") if len(data) > head else ""
    return "%d bytes: " % len(data) + data[:head].hex(" ").upper() + behind


def counted(data):
    return "%d byte%s" % (len(data), "" if len(data) == 1 else "s")


def sense_reply(data):
    """Sense data, whole or cut: INFORMATION is told where VALID, byte 0 bit 7, says that it is one (document 02, A8)."""
    if len(data) < 14:
        return "%s: %s" % (counted(data), data.hex(" ").upper())
    information = ", information %d" % struct.unpack_from(">I", data, 3) if data[0] & 0x80 else ""
    return "sense %02X/%02X/%02X" % (data[2] & 0x0F, data[12], data[13]) + information


def reply(event, block):
    """What data means, after the request or the command block that it answers."""
    data, command_code = event.data, block[0] if block else None
    if event.kind == 2 and event.body[:2] == b"\x80\x06" and event.body[3] == 3 and event.body[2] > 0:
        return '"%s"' % data[2:].decode("utf-16-le", "replace")
    if event.kind == 4 and command_code == 0x03:
        return sense_reply(data)
    if event.kind == 4 and block and page_code(block) is not None:
        return page_reply(page_code(block), data)
    if event.kind == 4 and command_code == 0x12 and len(data) >= 36:
        return '"%s" "%s" "%s"' % tuple(data[a:b].decode("ascii", "replace") for a, b in ((8, 16), (16, 32), (32, 36)))
    if event.kind == 4 and command_code == 0x25 and len(data) == 8:
        return "last block %d, of %d bytes" % struct.unpack(">II", data)
    return counted(data) + (": " + data.hex(" ").upper() if len(data) <= 8 else "")


def lines(entries):
    """(time, what the host sent, what the device answered), runs of equal data packets together."""
    rows, block = [], None
    for entry in entries:
        if isinstance(entry, log.Note):
            rows.append((entry.time, "-- " + " ".join(entry.words), ""))
            continue
        answer = entry.word
        if entry.kind == 1:
            sent = "bus reset"
        elif entry.kind == 2:
            sent = request(entry.body)
        elif entry.kind == 3:
            sent = "data out, %d bytes" % len(entry.body)
            if is_cbw(entry.body):
                sent, block = cbw(entry.body), entry.body[15:]
        else:
            sent = "ask" if entry.kind == 4 else "(the switch: %s, of unit %d)" % log.turned(entry.body)
        if entry.word == "data":
            answer = csw(entry.data) if entry.kind == 4 and is_csw(entry.data) else reply(entry, block)
        rows.append((entry.time, sent, answer))
    return together(rows)


def together(rows):
    """Neighbours that say the same become one row with a count."""
    out = []
    for time, sent, answer in rows:
        if out and out[-1][1:3] == (sent, answer) and sent.startswith(("ask", "data out")):
            out[-1] = (*out[-1][:3], out[-1][3] + 1)
        else:
            out.append((time, sent, answer, 1))
    return [(time, sent + (" (%d times)" % n if n > 1 else ""), answer) for time, sent, answer, n in out]


def write(entries, path):
    with open(path, "w", encoding="utf-8") as f:
        for time, sent, answer in lines(entries):
            f.write(("%10.4f  %-62s %s" % (time, sent, answer)).rstrip() + "\n")
