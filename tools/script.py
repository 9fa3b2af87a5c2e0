"""The text form of a recording: one event a line, and after `->` the answer that documents 01 and 02 give.

    reset                               setup 80 06 00 01 00 00 12 00
    out 55 53 42 ..                     out 64 x 07          (64 bytes of 07)
    in                                  switch open     switch closed 2     (of unit 2; of unit 0 where none is named)
    configure 1     address 5           clear in     set out     status in     msreset     maxlun
    descriptor device 18                (device, configuration, languages, vendor, product, serial)
    cbw tag=7 len=36 in COMMAND         (tag, len, in or out, unit=, size=, control=; what is left out is 1, 0, out, 0, the code's, 0)
COMMAND is a name with its numbers, or the block's bytes, the control byte among them:
    test   sense 18   inquiry 36   modes 192   prevent 0   capacity   read 127 1   write 0 2   verify 0 1   block 12 00 00 00 24 00
Answers: ack, nak, stall, silent, and data in these forms:
    data 00 01 ..      data none     data 64 x 00      csw tag=7 residue=0 passed
A line `repeat N` repeats the next line N times; `#` begins a comment.
A line `units 64 7 1 128` says how many blocks each unit has; without one there is one unit of 64, as on the bench.
"""
import struct

NAMES = {"device": 0x0100, "configuration": 0x0200, "languages": 0x0300, "vendor": 0x0301, "product": 0x0302, "serial": 0x0303}
ENDPOINTS = {"in": 0x81, "out": 0x02, "control": 0x00}
STATUS = {"passed": 0, "failed": 1, "phase": 2}
POSITIONS = {"open": 0, "closed": 1}
BENCH = [64]


def number(word):
    return int(word, 0)


def octets(words):
    """Bytes in hex, or `64 x 07`."""
    if len(words) == 3 and words[1] == "x":
        return bytes([int(words[2], 16)] * number(words[0]))
    return bytes(int(w, 16) for w in words)


def setup(kind, request, value=0, index=0, length=0):
    return struct.pack("<BBHHH", kind, request, value, index, length)


def block(words, control):
    name, rest = words[0], words[1:]
    if name == "block":
        if control:
            raise ValueError("the control byte is one of the block's")
        return octets(rest)
    n = [number(w) for w in rest]
    ten = lambda code, first, count: struct.pack(">BBIBHB", code, 0, first, 0, count, control)
    six = lambda code, *b: bytes([code, *b, control])
    forms = {
        "test": lambda: six(0x00, 0, 0, 0, 0),
        "sense": lambda: six(0x03, 0, 0, 0, n[0]),
        "inquiry": lambda: six(0x12, 0, 0, *divmod(n[0], 256)),
        "modes": lambda: six(0x1A, 0, 0x3F, 0, n[0]),
        "prevent": lambda: six(0x1E, 0, 0, 0, n[0]),
        "capacity": lambda: ten(0x25, 0, 0),
        "read": lambda: ten(0x28, *n),
        "write": lambda: ten(0x2A, *n),
        "verify": lambda: ten(0x2F, *n),
    }
    return forms[name]()


def cbw(words):
    fields = {"tag": 1, "len": 0, "unit": 0, "size": None, "control": 0}
    inward = False
    while words:
        w = words[0]
        if w in ("in", "out"):
            inward = w == "in"
        elif "=" in w:
            key, value = w.split("=")
            if key not in fields:
                raise ValueError("no field " + key)
            fields[key] = number(value)
        else:
            break
        words = words[1:]
    b = block(words, fields["control"])
    size = len(b) if fields["size"] is None else fields["size"]
    head = b"USBC" + struct.pack("<IIBBB", fields["tag"], fields["len"], 0x80 if inward else 0, fields["unit"], size)
    return head + b.ljust(16, b"\0")


def csw(words):
    fields = {"tag": 1, "residue": 0}
    for w in words[:-1]:
        key, value = w.split("=")
        fields[key] = number(value)
    return b"USBS" + struct.pack("<IIB", fields["tag"], fields["residue"], STATUS[words[-1]])


def event(words):
    """A line's event: its kind and body."""
    w, rest = words[0], words[1:]
    if w == "reset":
        return 1, b""
    if w == "in":
        return 4, b""
    if w == "out":
        return 3, octets(rest)
    if w == "cbw":
        return 3, cbw(rest)
    if w == "switch":
        return 5, bytes([POSITIONS[rest[0]], number(rest[1]) if rest[1:] else 0])
    forms = {
        "setup": lambda: octets(rest),
        "configure": lambda: setup(0x00, 0x09, number(rest[0])),
        "address": lambda: setup(0x00, 0x05, number(rest[0])),
        "clear": lambda: setup(0x02, 0x01, 0, ENDPOINTS[rest[0]]),
        "set": lambda: setup(0x02, 0x03, 0, ENDPOINTS[rest[0]]),
        "status": lambda: setup(0x82, 0x00, 0, ENDPOINTS[rest[0]], 2),
        "msreset": lambda: setup(0x21, 0xFF),
        "maxlun": lambda: setup(0xA1, 0xFE, 0, 0, 1),
        "descriptor": lambda: setup(0x80, 0x06, NAMES[rest[0]], 0x0409 if NAMES[rest[0]] > 0x0300 else 0, number(rest[1])),
    }
    return 2, forms[w]()


def answer(words):
    """The printed end of an event's line."""
    w, rest = words[0], words[1:]
    if w in ("ack", "nak", "stall", "silent"):
        return w
    data = csw(rest) if w == "csw" else b"" if rest == ["none"] else octets(rest)
    return "data %d" % len(data) + "".join(" %02X" % b for b in data)


def lines(text):
    """The lines that say something, each with its number."""
    for n, line in enumerate(text.splitlines(), 1):
        line = line.split("#")[0].strip()
        if line:
            yield n, line


def units(text):
    """The blocks of each unit."""
    said = [[number(w) for w in line.split()[1:]] for _, line in lines(text) if line.startswith("units ")]
    return said[0] if said else BENCH


def read(text):
    """The events, and the answers that are expected (None where a line gives none)."""
    events, answers, times = [], [], 1
    for n, line in lines(text):
        try:
            if line.startswith("units "):
                continue
            if line.startswith("repeat "):
                times = number(line.split()[1])
                continue
            left, _, right = line.partition("->")
            e, a = event(left.split()), answer(right.split()) if right.strip() else None
        except (ValueError, KeyError, IndexError) as fault:
            raise SystemExit("line %d: %s: %s" % (n, line, fault))
        events += [e] * times
        answers += [a] * times
        times = 1
    return events, answers


def recording(events):
    """The recording's bytes (document 01, "The bench recording")."""
    table = b"".join(struct.pack("<BBH", kind, 0, len(body)) for kind, body in events)
    return struct.pack("<H", len(events)) + table + b"".join(body for _, body in events)


def expected(answers):
    """The print-out that the answers make."""
    return "events %d\n" % len(answers) + "".join("%d %s\n" % (i, a) for i, a in enumerate(answers, 1))
