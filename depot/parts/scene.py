"""One run: the guest asks, the peer plugs, and the media are looked at from outside."""
import os
import queue

from . import blocks, initramfs, packages
from .files import has_file
from .machine import Machine, SOCKET, linux
from .media import media, meter_csv
from .peer import Peer, Refused
from .replies import INQUIRY, fixed_sense, mode_sense, product_pages

SILENCE = 60  # seconds in which a guest that lives says something
END = "end"


class Scene:
    """`peer` and `probe` are the programs: beside QEMU and in the guest."""

    def __init__(self, folder, seed, results, peer, probe):
        self.folder, self.results, self.peer, self.probe = folder, results, peer, probe
        self.media, self.csv = media(seed), meter_csv(seed)
        self.loaded = None  # the name of the medium that was plugged in last

    def path(self, name):
        return os.path.join(self.folder, name)

    def prepare(self, controller):
        files = [("meter.csv", self.csv), ("probe", initramfs.read(self.probe)), ("controller", controller.encode())]
        files += [("inquiry", INQUIRY), ("no-sense", fixed_sense(0, 0, 0)), ("mode-sense", mode_sense(False))]
        files += [("page-%02X" % code, page) for code, page in product_pages(42).items()]  # of the bench's device
        for name, medium in self.media.items():
            files += medium.files(name)
            medium.before.write(self.path(name + ".medium"))
        initramfs.build(self.path("initramfs"), packages.kernel()[1], files)
        if os.path.exists(self.path(SOCKET)):
            os.unlink(self.path(SOCKET))

    def play(self, controller, wrong, until_failure):
        """Runs the guest to its end. What stops it early is a failed check too."""
        self.prepare(controller)
        machine = Machine(self.folder, controller, linux("initramfs"))
        peer = None
        try:
            peer = Peer(self.peer, self.folder, self.results.start, wrong)
            self.results.mark("QEMU started, %s" % controller)
            with open(self.path("dialogue.log"), "w", encoding="utf-8") as log:
                while not (until_failure and self.results.failed()):
                    line = machine.line(SILENCE)
                    if line in (None, END):
                        self.results.check("guest-came-to-its-end", line == END, "poweroff")
                        break
                    log.write("%.2f %s\n" % (self.results.now(), line))
                    self.hear(line, machine, peer)
        except queue.Empty:
            self.results.check("guest-came-to-its-end", False, "silent for %d seconds" % SILENCE)
        except Refused as fault:
            self.results.check(fault.check, False, str(fault))
        finally:
            machine.stop()
            if peer:
                complaint = peer.stop()
                self.results.check("device-refused-nothing", not complaint, complaint or "no event brought a number of 10 and over")
            if os.path.exists(self.path(SOCKET)):
                os.unlink(self.path(SOCKET))

    def hear(self, line, machine, peer):
        word, _, rest = line.partition(" ")
        if word == "mark":
            self.results.mark(rest)
        elif word == "check":
            name, verdict, *detail = rest.split(" ", 2)
            self.results.check(name, verdict == "ok", " ".join(detail))
        elif word == "ask":
            self.do(rest.split(), peer)
            machine.answer("done")

    def do(self, words, peer):
        if words[0] == "plug":
            if words[1] != "same":
                peer.order("load %s.medium" % words[1])
                self.loaded = words[1]
            peer.order("plug %s %s" % (" ".join(words[2:]), " ".join(map(str, self.media[self.loaded].sizes))))
        elif words[0] in ("unplug", "switch"):
            peer.order(" ".join(words))
        elif words[0] == "save":
            peer.order("save %s.saved" % words[1])
            self.look_outside(words[1])

    def look_outside(self, name):
        """The peer's medium, which the guest cannot see, is compared with what the run's own numbers make it."""
        saved = blocks.read(self.path(name + ".saved"))
        if name in ("file-system", "sealed"):
            good = has_file(saved, "METER", self.csv)
            self.results.check(name + "-csv-outside", good, "directory entry and %d bytes of the CSV on the medium" % len(self.csv))
        elif name.startswith("districts-"):
            self.look_at_districts(name, saved)
        elif name.startswith("sealed-"):
            formatted = blocks.read(self.path("sealed.saved"))
            self.compare(name, formatted, self.media["sealed"].written(formatted) if name == "sealed-opened" else formatted, saved)
        else:
            self.compare(name, self.media[name].before, self.media[name].after, saved)

    def compare(self, name, before, expected, saved):
        changed = before.changed(saved)
        detail = "changed: " + (" ".join(map(str, changed[:8])) + (" and %d more" % (len(changed) - 8) if len(changed) > 8 else "") or "none")
        self.results.check(name + "-outside", saved == expected, detail)

    def look_at_districts(self, name, saved):
        """Every unit's part of the medium (document 02, A7)."""
        districts, state = self.media["districts"], name.removeprefix("districts-")
        written = districts.written_by(state)
        if written:
            self.compare(name, *written, saved)
            return
        sealed = 1 if state == "sealed" else None
        wrong = districts.exports(saved, sealed)
        self.results.check(name + "-outside", not wrong, "; ".join(wrong) or "each unit has its own district's CSV and no other's")
        if sealed is not None:
            copied = districts.part(blocks.read(self.path("districts-csv.saved")), sealed)
            self.compare("unit-%d-sealed" % sealed, copied, copied, districts.part(saved, sealed))
