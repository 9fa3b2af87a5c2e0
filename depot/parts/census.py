"""What must have been on the bus, so that a check which passes has met what it is about: counted in the log."""
import struct

from . import log
from .decode import COMMANDS, is_cbw, is_csw
from .districts import SIZES
from .media import LARGEST
from .replies import product_pages
from .rules import allocation_length, control_byte, out_of_range, page_code

# The least that the guest's tests provoke, and what the probe adds, which runs under xhci.
# "control bytes" are wrappers whose control byte is not 0: Linux handed the bits on as sg_raw was given them. In the same way
# "lengths with byte 3" are wrappers of codes 03, 12 and 1A whose byte 3 is not 0, and "reads past 65,535" and the writes are
# wrappers in range whose last block is at 65,536 or behind it. "refused at" are wrappers out of range, with the block that their sense
# must name (document 02, A8); "senses with a block" are replies that name one. "turned in a Write" are turns of a switch (document 02,
# A4) between two packets of data, "senses of the switch" replies with 07/27/00. "commands for unit 1" and so on are wrappers that name it,
# "beyond the table" those that name a unit that there is not, "highest unit 3" the answers to Get Max LUN (document 02, A7).
LEAST = {"devices": 11, "bus resets": 20, "failed": 60, "phase errors": 4, "stalls": 74, "control bytes": 7,
         "lengths with byte 3": 7, "reads past 65,535": 25, "writes past 65,535": 9,
         "page 00 whole": 10, "page 80 whole": 10, "page 83 whole": 6, "page 00 cut": 4, "page 80 cut": 4, "page 83 cut": 4,
         "page 80 of 0 bytes": 1, "refused pages": 1, "refused pages of 0 bytes": 1,
         "closed": 6, "opened": 3, "turned in a Write": 1, "senses of the switch": 11, "Mode Senses with 80": 8, "Write refused at 512": 1,
         "Read refused at 64": 2, "Write refused at 64": 1, "Verify refused at 64": 1, "Read refused at 65": 1,
         "Read refused at 1048576": 6, "Write refused at 1048576": 1, "Verify refused at 1048577": 1,
         "Read refused at 4294967280": 1, "Read refused at 4294967295": 1, "Verify refused at 4294967295": 1,
         "senses with a block": 33, "failures' senses without": 10,
         "highest unit 3": 3, "commands for unit 1": 100, "commands for unit 2": 100, "commands for unit 3": 100, "turned, of units 1 to 3": 5}
LEAST_WITH_PROBE = {"failed": 412, "phase errors": 10, "lengths with byte 3": 9, "naks": 9, "taken back": 8, "mass storage resets": 40,
                    "closed": 21, "opened": 18, "turned in a Write": 6, "senses of the switch": 24, "Mode Senses with 80": 20,
                    "page 00 of 0 bytes": 1, "page 80 of 0 bytes": 2, "page 83 of 0 bytes": 2, "refused pages of 0 bytes": 254,
                    "Read refused at 128": 41, "Write refused at 128": 2, "Verify refused at 128": 2, "Read refused at 129": 1,
                    "Read refused at 16909060": 1, "Write refused at 4294967169": 1,
                    "Read refused at 4294967295": 2, "Verify refused at 4294967295": 2,
                    "senses with a block": 58, "cut senses with a block": 17, "failures' senses without": 14,
                    "highest unit 3": 5, "turned, of units 1 to 3": 17, "beyond the table": 19}
for blocks in SIZES:  # each unit's own end
    LEAST.update({"Read refused at %d" % blocks: 2, "Write refused at %d" % blocks: 1, "Verify refused at %d" % blocks: 1})
    LEAST_WITH_PROBE["Read refused at %d" % blocks] = 10
PAGE_SIZES = {code: len(page) for code, page in product_pages(0).items()}  # every number's are as long


def page_kind(block):
    """What an Inquiry asks for (document 02, A2): a page whole, cut, or of 0 bytes, or one that there is not. None: no page at all."""
    page, most = page_code(block), allocation_length(block)
    if page is None:
        return None
    if page not in PAGE_SIZES:
        return "refused pages" if most else "refused pages of 0 bytes"
    return "page %02X %s" % (page, "of 0 bytes" if not most else "cut" if most < PAGE_SIZES[page] else "whole")


def is_far(block):
    address, count = struct.unpack_from(">IxH", block, 2)
    return count > 0 and 65536 < address + count <= LARGEST


def refusal(block, blocks):
    """Which block a command out of range is refused at (document 02, A8). None: it is in range, or has none."""
    address, count = struct.unpack_from(">IxH", block, 2)
    if block[0] not in (0x28, 0x2A, 0x2F) or address + count <= blocks:
        return None
    return "%s refused at %d" % (COMMANDS[block[0]], out_of_range(address, blocks)[3])


def sense_kind(data):
    """What Request Sense told, by VALID and the key. None: of no failure."""
    if data[0] & 0x80:
        return "senses with a block" if len(data) == 18 else "cut senses with a block"
    return {b"\x05": "failures' senses without", b"\x07": "senses of the switch"}.get(data[2:3])


def turns_in_writes(entries):
    """How often the switch is turned between two packets of data outward."""
    events = [entry for entry in entries if isinstance(entry, log.Event)]
    is_data = lambda event: event.kind == 3 and len(event.body) == 64
    return sum(event.kind == 5 and is_data(before) and is_data(behind) for before, event, behind in zip(events, events[1:], events[2:]))


def count(entries):
    entries = list(entries)
    seen, sizes, block = dict.fromkeys([*LEAST, *LEAST_WITH_PROBE], 0), [], b""
    seen["turned in a Write"] = turns_in_writes(entries)
    for entry in entries:
        if isinstance(entry, log.Note):
            seen["devices"] += entry.words[0] == "plugged"
            sizes = log.sizes(entry) if entry.words[0] == "plugged" else sizes
            seen["taken back"] += entry.words[0] == "cancelled"
            continue
        seen["bus resets"] += entry.kind == 1
        if entry.kind == 5:
            position, unit = log.turned(entry.body)
            seen["closed"] += position == "closed"
            seen["opened"] += position == "open"
            seen["turned, of units 1 to 3"] += unit > 0
        seen["mass storage resets"] += entry.kind == 2 and entry.body[:2] == b"\x21\xFF"
        seen["highest unit 3"] += entry.kind == 2 and entry.body[:2] == b"\xA1\xFE" and entry.data == b"\x03"
        seen["stalls"] += entry.word == "stall"
        seen["naks"] += entry.word == "nak"
        if entry.kind == 3 and is_cbw(entry.body) and entry.body[13] >= len(sizes):
            seen["beyond the table"] += 1
        elif entry.kind == 3 and is_cbw(entry.body):
            unit, block = entry.body[13], entry.body[15:]
            if unit:
                seen["commands for unit %d" % unit] += 1
            seen["control bytes"] += control_byte(block) != 0
            if page_kind(block):
                seen[page_kind(block)] += 1
            seen["lengths with byte 3"] += block[0] in (0x03, 0x12, 0x1A) and block[3] != 0
            seen["reads past 65,535"] += block[0] == 0x28 and is_far(block)
            seen["writes past 65,535"] += block[0] == 0x2A and is_far(block)
            if refusal(block, sizes[unit]) in seen:
                seen[refusal(block, sizes[unit])] += 1
        if entry.kind == 4 and is_csw(entry.data):
            seen["failed"] += entry.data[12] == 1
            seen["phase errors"] += entry.data[12] == 2
        elif entry.kind == 4 and entry.data and block[:1] == b"\x03" and sense_kind(entry.data):
            seen[sense_kind(entry.data)] += 1
        elif entry.kind == 4 and block[:1] == b"\x1A":
            seen["Mode Senses with 80"] += entry.data[2:3] == b"\x80"
    return seen


def shown(entries):
    """Whether the packets of Reads were shown where they stand, and no others (document 02, A11). They are the packets of 64 bytes: no
    reply is so long."""
    asks = [entry for entry in entries if isinstance(entry, log.Event) and entry.kind == 4 and entry.data]
    wrong = ["%.3f s: %d bytes %s" % (ask.time, len(ask.data), "shown" if ask.shown else "copied") for ask in asks if ask.shown != (len(ask.data) == 64)]
    count = sum(ask.shown for ask in asks)
    return bool(count and not wrong), wrong[0] if wrong else "%d packets shown, %d copied" % (count, len(asks) - count)


def verdict(entries, probed):
    seen = count(entries)
    least = {**LEAST, **LEAST_WITH_PROBE} if probed else LEAST
    lacking = ["%s: %d, not %d" % (name, seen[name], n) for name, n in least.items() if seen[name] < n]
    return not lacking, "; ".join(lacking) or ", ".join("%d %s" % (seen[name], name) for name in least)
