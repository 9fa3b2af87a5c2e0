"""Document 02, A13: every recording's ledger is in balance, that of recordings/ledger.txt is the one worked out by hand, and the accountant
finds fault with wrong devices: their histories are that of recordings/ledger.txt with a few answers changed.
"""
import glob
import struct
import subprocess
import sys

sys.path.insert(0, "tools")
sys.dont_write_bytecode = True
import accounts
import history
import script

GOOD, SIZES = history.written("recordings/ledger.txt")
ACK, NAK, STALL = ("ack", b""), ("nak", b""), ("stall", b"")


def data(octets):
    return "data", octets


def status(tag, residue, number=0):
    return data(b"USBS" + struct.pack("<IIB", tag, residue, number))


def command(tag):
    """Where the first command with this tag is in the history, counted from 0."""
    return next(i for i, ((kind, body), answer) in enumerate(GOOD) if kind == 3 and answer == ACK and body[4:8] == struct.pack("<I", tag))


def closing(tag):
    """Where its status is."""
    return next(i for i, (_, (_, out)) in enumerate(GOOD) if i > command(tag) and out[:8] == b"USBS" + struct.pack("<I", tag))


def after(tag, answer):
    """Where the first such answer behind its wrapper is."""
    return next(i for i, (_, given) in enumerate(GOOD) if i > command(tag) and given == answer)


# A wrong device: the answers that it changes, by their place, and what the accountant says of which commands. A row without a command is
# at the place itself.
WRONG = {
    "an invented residue": ({closing(0xA3): status(0xA3, 0, 1)}, {command(0xA3): "512 announced, 0 counted, residue 0"}),
    "a residue over what was announced": ({closing(0xB1): status(0xB1, 513, 2)}, {command(0xB1): "512 announced, 0 counted, residue 513"}),
    "a short reply told as whole": ({closing(0xA1): status(0xA1, 0)}, {command(0xA1): "64 announced, 36 counted, residue 0"}),
    "a short read told as whole": ({closing(0xA2): status(0xA2, 0)}, {command(0xA2): "1024 announced, 512 counted, residue 0"}),
    "a block told that did not arrive": ({closing(0xAB): status(0xAB, 0, 2)}, {command(0xAB): "1024 announced, 512 counted, residue 0"}),
    "part of a block told": ({closing(0xAB): status(0xAB, 320, 2)}, {command(0xAB): "1024 announced, 512 counted, residue 320"}),
    "a block not told that arrived": ({closing(0xAB): status(0xAB, 1024, 2)}, {command(0xAB): "1024 announced, 512 counted, residue 1024"}),
    "the tag of the command before": ({closing(0xA5): status(0xA4, 1024, 1)}, {command(0xA5): "the status has tag A4"}),
    "no status": ({closing(0xA9): NAK}, {command(0xA9): "no status before the next command"}),
    "a command accepted before the status": (
        {command(0xA9) + 1: ACK},
        {command(0xA9): "no status before the next command", command(0xA9) + 1: "the status has tag A9"},
    ),
    "a status twice": ({closing(0xA9) + 1: status(0xA9, 0)}, {closing(0xA9) + 1: "a status without a command"}),
    "a status while locked": ({closing(0xF7) + 2: status(0xF7, 0)}, {closing(0xF7) + 2: "a status without a command"}),
    "the status of a Read that a reset cut": ({after(0xC0, NAK): status(0xC0, 704)}, {after(0xC0, NAK): "a status without a command"}),
    "the status that a Set Configuration cut": ({after(0xE0, NAK): status(0xE0, 0)}, {after(0xE0, NAK): "a status without a command"}),
    "data of a Read that a reset cut": ({after(0xC0, NAK): data(b"\x11" * 64)}, {after(0xC0, NAK): "64 bytes without a command"}),
    "data after the status": ({closing(0xA9) + 1: data(bytes(64))}, {command(0xA9): "0 announced, 64 counted, residue 0"}),
    "an invented residue, and data after it": (
        {closing(0xA9): status(0xA9, 64), closing(0xA9) + 1: data(bytes(64))},
        {command(0xA9): "0 announced, 0 counted, residue 64"},
    ),
    "the status before the last data": (
        {closing(0xE1) - 1: status(0xE1, 0), closing(0xE1): data(bytes(64))},
        {command(0xE1): "1024 announced, 960 counted, residue 0"},
    ),
    "data of a failed Write taken": ({after(0xF0, STALL): ACK}, {after(0xF0, STALL): "a packet of 64 bytes taken for a command"}),
    "data of a phase error taken, out": ({after(0xF6, STALL): ACK}, {after(0xF6, STALL): "a packet of 64 bytes taken for a command"}),
    "data of a phase error taken, in": ({after(0xF8, NAK): ACK}, {after(0xF8, NAK): "a packet of 64 bytes taken for a command"}),
    "data after a short packet taken": ({after(0xAB, STALL): ACK}, {after(0xAB, STALL): "a packet of 64 bytes taken for a command"}),
    "a broken wrapper taken": ({closing(0xF7) + 1: ACK}, {closing(0xF7) + 1: "a packet of 30 bytes taken for a command"}),
    "the next command without the reset": ({after(0xC0, NAK) - 1: STALL}, {command(0xC0): "no status before the next command"}),
}


def wrong_devices():
    for name, (changes, faults) in WRONG.items():
        kept = accounts.kept([(event, changes.get(i, answer)) for i, (event, answer) in enumerate(GOOD)], SIZES)
        found = {row.at - 1: row.fault for row in kept.faults()}
        if found != faults:
            yield "%s: found %s, and not %s" % (name, found, faults)


def recordings():
    for path in sorted(glob.glob("recordings/*.txt")):
        kept = accounts.kept(*history.written(path))
        yield from ("%s, event %d: %s" % (path, row.at, row.fault) for row in kept.faults())


def shown(answers):
    """What tools/ledger prints of the recording with these answers, and its exit status."""
    printed = script.expected([script.answer(["data", *(out.hex(" ").split() or ["none"])]) if word == "data" else word for word, out in answers])
    run = subprocess.run(["tools/ledger", "crates/replay/data/ledger.rec", "-"], input=printed, stdout=subprocess.PIPE, text=True, check=False)
    return run.stdout, run.returncode


def command_line():
    with open("recordings/ledger.expected", encoding="ascii") as f:
        expected = f.read()
    answers = [answer for _, answer in GOOD]
    if shown(answers) != (expected, 0):
        yield "tools/ledger does not print recordings/ledger.expected"
    answers[closing(0xA2)] = status(0xA2, 0)
    text, code = shown(answers)
    marked = [line for line in text.splitlines() if "OUT OF BALANCE" in line]
    if code != 1 or [line.split()[:2] for line in marked] != [[str(command(0xA2) + 1), "A2"], expected.splitlines()[-1].split()[:2]]:
        yield "tools/ledger does not mark a row that is out of balance"


faults = [*recordings(), *wrong_devices(), *command_line()]
print("\n".join(faults) if faults else "ledger: ok")
sys.exit(1 if faults else 0)
