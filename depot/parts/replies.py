"""The bytes that document 01 gives, with document 02's landed requests: descriptors, and the replies of commands."""
import struct

CONFIGURATION = bytes.fromhex("09 02 20 00 01 01 00 C0 00  09 04 00 00 02 08 06 50 00  07 05 81 02 40 00 00  07 05 02 02 40 00 00")
LANGUAGES = bytes.fromhex("04 03 09 04")
INQUIRY = bytes.fromhex("00 80 05 02 1F 00 00 00") + b"COLLECT " + b"METER EXPORT    " + b"0100"


def device_descriptor(vendor, product, release):
    return bytes.fromhex("12 01 00 02 00 00 00 40") + struct.pack("<HHH", vendor, product, release) + bytes.fromhex("01 02 03 01")


def utf16(text):
    body = text.encode("utf-16-le")
    return bytes([2 + len(body), 3]) + body


def serial(number):
    return "%012d" % number


def product_pages(number):
    """Inquiry's pages by their code (document 02, A2): the list of them, the serial, and one identifier, the vendor before the serial."""
    digits = serial(number).encode("ascii")
    return {
        0x00: bytes.fromhex("00 00 00 03  00 80 83"),
        0x80: bytes.fromhex("00 80 00 0C") + digits,
        0x83: bytes.fromhex("00 83 00 18  02 01 00 14") + b"COLLECT " + digits,
    }


def fixed_sense(key, code, qualifier, block=None):
    """Request Sense's 18 bytes. `block` is the first outside the unit, of a range failure: INFORMATION, with VALID set (document 02, A8)."""
    valid, information = (0x00, 0) if block is None else (0x80, block)
    return struct.pack(">BxBIB4xBB4x", valid | 0x70, key, information, 0x0A, code, qualifier)


def mode_sense(closed):
    """The third byte shows the switch (document 02, A4)."""
    return bytes([0x03, 0x00, 0x80 if closed else 0x00, 0x00])


def capacity(blocks):
    return struct.pack(">II", blocks - 1, 512)
