"""A log in the text form of the repository's recordings, which tools/script.py defines and reads."""
import struct

from . import log
from .decode import is_cbw, is_csw
from .rules import allocation_length, control_byte
from .tools import script

ENDPOINTS = {value: name for name, value in script.ENDPOINTS.items()}
DESCRIPTORS = {value: name for name, value in script.NAMES.items()}
STATUS = {value: name for name, value in script.STATUS.items()}
HEADER = """# Debian's Linux plugs the collector in: enumeration, the first commands, and then what sg3-utils sends.
# Recorded by depot/run; the answers are those of document 01, not the device's.
"""


def octets(data):
    if len(data) == 64 and len(set(data)) == 1:
        return "64 x %02X" % data[0]
    return data.hex(" ").upper()


def setup(body):
    kind, code, value, index, length = struct.unpack("<BBHHH", body)
    names = {(0x21, 0xFF): "msreset", (0xA1, 0xFE): "maxlun", (0x00, 0x09): "configure %d" % value}
    if (kind, code) == (0x80, 0x06) and value in DESCRIPTORS:
        names[kind, code] = "descriptor %s %d" % (DESCRIPTORS[value], length)
    if (kind, code) in ((0x02, 0x01), (0x02, 0x03)) and index in ENDPOINTS:
        names[kind, code] = "%s %s" % ("clear" if code == 0x01 else "set", ENDPOINTS[index])
    return names.get((kind, code)), "setup " + octets(body)


def block(b):
    first, count = struct.unpack_from(">IxH", b, 2)
    blocks = "%d %d" % (first, count)
    most = allocation_length(b)
    names = {0x00: "test", 0x03: "sense %d" % most, 0x12: "inquiry %d" % most, 0x1A: "modes %d" % most, 0x1E: "prevent %d" % b[4],
             0x25: "capacity", 0x28: "read " + blocks, 0x2A: "write " + blocks, 0x2F: "verify " + blocks}
    return names.get(b[0]), "block " + octets(b)


def cbw(body):
    tag, length, flags, unit, size = struct.unpack_from("<IIBBB", body, 4)
    head = "cbw tag=%d" % tag + (" len=%d" % length if length else "") + (" in" if flags & 0x80 else "") + (" unit=%d" % unit if unit else "")
    name, plain = block(body[15:15 + max(size, 10)])
    control = control_byte(body[15:])
    named = head + (" control=0x%02X" % control if control else "")
    return "%s %s" % (named, name), "%s block %s" % (head, octets(body[15:15 + size])), "%s size=%d %s" % (head, size, plain)


def switch(body):
    position, unit = log.turned(body)
    return "switch " + position, "switch %s %d" % (position, unit)


def event(entry):
    """The shortest form that reads back to the event."""
    if entry.kind in (1, 4):
        return "reset" if entry.kind == 1 else "in"
    if entry.kind == 5:
        forms = switch(entry.body)
    else:
        forms = [form for form in (setup(entry.body) if entry.kind == 2 else cbw(entry.body) if is_cbw(entry.body) else ()) if form]
    for form in [*forms, "out " + octets(entry.body)]:
        try:
            if script.event(form.split()) == (entry.kind, entry.body):
                return form
        except (KeyError, ValueError, IndexError):
            pass
    raise ValueError("no form for event %d %s" % (entry.kind, entry.body.hex()))


def answer(word, data):
    if word != "data":
        return word
    if is_csw(data):
        tag, residue, status = struct.unpack_from("<IIB", data, 4)
        return "csw tag=%d residue=%d %s" % (tag, residue, STATUS[status])
    return "data " + (octets(data) or "none")


def text(events, answers):
    lines = []
    for entry, (word, data) in zip(events, answers):
        line = "%s -> %s" % (event(entry), answer(word, data))
        if lines and lines[-1][0] == line:
            lines[-1][1] += 1
        else:
            lines.append([line, 1])
    return HEADER + "".join(("repeat %d\n" % n if n > 1 else "") + line + "\n" for line, n in lines)


def compiled(form):
    """The recording's bytes and its print-out, as tools/record makes them."""
    events, answers = script.read(form)
    return script.recording(events), script.expected(answers)


def answers(pairs):
    """(word, data) as tools/script.py prints them."""
    return [script.answer(["data", *(data.hex(" ").split() or ["none"])]) if word == "data" else word for word, data in pairs]
