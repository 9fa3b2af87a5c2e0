"""A history: events, each its kind and body, and their answers, each a word (ack, nak, stall, silent, data) and its bytes."""
import struct
import sys

import script


def events(data):
    """The events of a recording."""
    count = data[0] | data[1] << 8
    at = 2 + 4 * count
    for i in range(count):
        kind, _, length = struct.unpack_from("<BBH", data, 2 + 4 * i)
        yield kind, data[at:at + length]
        at += length


def answer(line):
    """An answer as a line of the print-out ends with it: `ack`, `data 2 01 00`."""
    word, *rest = line.split()
    return word, bytes(int(w, 16) for w in rest[1:])


def played(path, printed):
    """The events of the recording `path`, each with its answer in the print-out; `-` is standard input."""
    with open(path, "rb") as f:
        data = f.read()
    lines = (sys.stdin if printed == "-" else open(printed, encoding="ascii")).read().splitlines()
    if not lines or not lines[0].startswith("events "):
        raise SystemExit("\n".join(lines))
    given, answers = list(events(data)), [answer(line.partition(" ")[2]) for line in lines[1:]]
    if len(given) != len(answers):
        raise SystemExit("%d events, and %d answers" % (len(given), len(answers)))
    return list(zip(given, answers))


def written(path):
    """The events of a text, each with the answer that it gives, and its units' numbers of blocks."""
    with open(path, encoding="utf-8") as f:
        text = f.read()
    given, answers = script.read(text)
    if None in answers:
        raise SystemExit("%s: a line has no answer" % path)
    return list(zip(given, map(answer, answers))), script.units(text)
