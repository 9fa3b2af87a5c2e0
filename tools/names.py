"""Requests and command blocks by name."""
import struct

import script

REQUESTS = {
    (0x00, 0x05): "Set Address", (0x00, 0x09): "Set Configuration", (0x80, 0x08): "Get Configuration",
    (0x80, 0x00): "Get Status, device", (0x81, 0x00): "Get Status, interface", (0x82, 0x00): "Get Status, endpoint",
    (0x02, 0x01): "Clear Feature, halt", (0x02, 0x03): "Set Feature, halt",
    (0x21, 0xFF): "Mass Storage Reset", (0xA1, 0xFE): "Get Max LUN", (0x80, 0x06): "Get Descriptor",
}
COMMANDS = {
    0x00: "Test Unit Ready", 0x03: "Request Sense", 0x12: "Inquiry", 0x1A: "Mode Sense", 0x1E: "Prevent/Allow",
    0x25: "Read Capacity", 0x28: "Read", 0x2A: "Write", 0x2F: "Verify",
}
DESCRIPTORS = {v: k for k, v in script.NAMES.items()}


def request(s):
    kind, code, value, index, _ = struct.unpack("<BBHHH", s)
    name = REQUESTS.get((kind, code), "request %02X %02X" % (kind, code))
    if name == "Get Descriptor":
        return "%s %s" % (name, DESCRIPTORS.get(value, "%04X" % value))
    if name.startswith("Set A") or name.startswith("Set C"):
        return "%s %d" % (name, value)
    return name + (" %02X" % index if kind & 0x1F == 2 else "")


def command(b):
    name = COMMANDS.get(b[0], "code %02X" % b[0])
    if b[0] in (0x28, 0x2A, 0x2F):
        block, _, count = struct.unpack_from(">IBH", b, 2)
        name += " block %d count %d" % (block, count)
    elif b[0] in (0x03, 0x12, 0x1A):
        name += " %d" % (b[4] if b[0] != 0x12 else b[3] << 8 | b[4])
    control = b[5 if b[0] < 0x20 else 9] if b[0] in COMMANDS else 0
    return name + (", control byte %02X" % control if control else "")
