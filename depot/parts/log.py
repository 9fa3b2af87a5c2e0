"""The peer's log of events, read again."""
from collections import namedtuple

KINDS = {"reset": 1, "setup": 2, "out": 3, "in": 4, "switch": 5}
POSITIONS = ["open", "closed"]  # of a switch (document 02, A4), by number

# kind and body as in a recording; word is the answer's (ack, nak, stall, silent, data, refused), data its bytes; shown says that they
# stand in the medium and were not copied (document 02, A11).
Event = namedtuple("Event", "time kind body word data shown")
# What happened beside the device's events: `words` as the peer wrote them.
Note = namedtuple("Note", "time words")


def octets(words):
    return b"" if words == ["none"] else bytes.fromhex("".join(words))


def turn(words):
    """A switch event's body, from its position and its unit (document 02, A7) in words."""
    position, unit = words
    return bytes([POSITIONS.index(position), int(unit)])


def turned(body):
    """A switch event's position, as a word, and its unit."""
    position, unit = body
    return POSITIONS[position], unit


def read(path):
    with open(path, encoding="ascii") as f:
        for line in f:
            time, _, rest = line.rstrip("\n").partition(" ")
            if rest.startswith("# "):
                yield Note(float(time), rest[2:].split(" "))
                continue
            event, _, answer = rest.partition(" -> ")
            (name, *body), (word, *data) = event.split(" "), answer.split(" ")
            body = turn(body) if name == "switch" else octets(body)
            shown = word == "shown"
            word = "data" if shown else word
            yield Event(float(time), KINDS[name], body, word, octets(data) if word == "data" else b"", shown)


def sizes(note):
    """The units' numbers of blocks, of a `plugged` note."""
    return [int(blocks) for blocks in dict(word.split("=") for word in note.words[1:])["units"].split(",")]


def identity(note):
    """The numbers of a `plugged` note: number, vendor, product, release."""
    fields = dict(word.split("=") for word in note.words[1:])
    return int(fields["number"]), *(int(fields[name], 16) for name in ("vendor", "product", "release"))
