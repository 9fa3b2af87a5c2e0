"""A second host, which is no Linux: the computer's BIOS enumerates the collector, boots from it, reads and writes its units."""
import os
import queue
import random
import subprocess
from collections import namedtuple

from . import blocks
from .blocks import BLOCK, Blocks
from .machine import Machine, SOCKET
from .peer import Peer, Refused
from .places import DEPOT

# As boot/boot.s has them. SeaBIOS does not boot from 64 blocks, of which it makes 0 cylinders.
BLOCKS, READ, WRITTEN = 4096, range(1, 4), range(4093, 4096)
SILENCE = 60

# A start of the computer: its checks' names begin with `name`; `sizes` are the units' (document 02, A7), `closed` the switch (A4).
Boot = namedtuple("Boot", "name sizes closed")
BOOTS = [Boot("", [BLOCKS], False), Boot("closed-", [BLOCKS], True), Boot("units-", [BLOCKS, 2 * BLOCKS], False)]


def boot_block(folder):
    """boot/boot.s, assembled."""
    run = lambda *command: subprocess.run(command, cwd=folder, check=True)
    run("as", "--32", "-o", "boot.o", os.path.join(DEPOT, "boot", "boot.s"))
    run("ld", "-m", "elf_i386", "-Ttext", "0x7C00", "-e", "start", "--oformat", "binary", "-o", "boot.bin", "boot.o")
    with open(os.path.join(folder, "boot.bin"), "rb") as f:
        return f.read()


def firsts(sizes):
    """Each unit's first block in the medium."""
    return [sum(sizes[:unit]) for unit in range(len(sizes))]


def play(folder, seed, results, program, wrong, boot):
    """Boots once. With the switch closed the BIOS cannot write."""
    check = lambda name, good, detail: results.check(boot.name + name, good, detail)
    count = sum(boot.sizes)
    before = Blocks(count, boot_block(folder) + random.Random(seed).randbytes((count - 1) * BLOCK))
    before.write(os.path.join(folder, "boot.medium"))
    socket = os.path.join(folder, SOCKET)
    if os.path.exists(socket):
        os.unlink(socket)
    machine, peer = Machine(folder, "xhci", [], boots=True), None
    try:
        peer = Peer(program, folder, results.start, wrong)
        peer.order("load boot.medium")
        if boot.closed:
            peer.order("switch closed 0")
        peer.order("plug 42 0000 0000 0000 " + " ".join(map(str, boot.sizes)))
        units = "%d unit%s" % (len(boot.sizes), "" if len(boot.sizes) == 1 else "s")
        results.mark("computer switched on, a collector of %s plugged in, its switch %s" % (units, "closed" if boot.closed else "open"))
        hear(machine, before, check, boot)
        results.mark("booted from the collector, blocks read and %s" % ("not written" if boot.closed else "written"))
        peer.order("save boot.saved")
        saved, after = blocks.read(os.path.join(folder, "boot.saved")), before.copy()
        for first in firsts(boot.sizes):
            if not boot.closed:
                after.put(first + WRITTEN.start, before.get(first + READ.start, len(READ)))
        check("written-outside", saved == after, "changed: " + (" ".join(map(str, before.changed(saved))) or "none"))
    except queue.Empty:
        check("computer-answers", False, "silent for %d seconds" % SILENCE)
    except Refused as fault:
        check(fault.check, False, str(fault))
    finally:
        machine.stop()
        if peer:
            complaint = peer.stop()
            check("device-refused-nothing", not complaint, complaint or "no event brought a number of 10 and over")
        if os.path.exists(socket):
            os.unlink(socket)


def hear(machine, before, check, boot):
    line = machine.line(SILENCE)
    check("boots", line == "booted", "the boot block runs" if line == "booted" else repr(line))
    for unit, first in enumerate(firsts(boot.sizes)):
        for block in READ:
            line = machine.line(SILENCE)
            name = "reads-unit-%d-block-%d" % (unit, block)
            check(name, line == before.get(first + block, 1).hex().upper(), "%d digits" % len(line or ""))
    line = machine.line(SILENCE)
    check("writes", line == ("refused" if boot.closed else "end"), "the BIOS tells of %s error" % ("an" if line == "refused" else "no"))
