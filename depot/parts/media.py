"""The media that are plugged in, and what the guest is to write on them: random, so that no device can guess it."""
import itertools
import random

from .blocks import BLOCK, Blocks
from .districts import Districts

LARGEST = 1048576  # document 02, A5


def lines(places):
    """(block, count), a line each, as the guest reads them."""
    return "".join("%d %d\n" % place for place in places).encode()


class Medium:
    """A medium of one unit, before and after the guest's writes; `writes` are its (block, count) in order, `data` their bytes, `spare`
    blocks more."""

    def __init__(self, chance, before, writes, spare=0):
        self.before, self.writes, self.sizes = before, writes, [before.count]
        self.data = chance.randbytes(BLOCK * (sum(count for _, count in writes) + spare))
        self.after, at = before.copy(), 0
        for block, count in writes:
            self.after.put(block, self.data[at:at + count * BLOCK])
            at += count * BLOCK

    def files(self, name):
        """For the guest: what it writes, and the whole medium."""
        return [(name + ".data", self.data), (name + ".list", lines(self.writes)),
                (name + ".before", self.before.get(0, self.before.count)), (name + ".after", self.after.get(0, self.after.count))]


class SparseMedium(Medium):
    """A medium that is too large to be read whole: the guest reads its `places` only, lists of (block, count) by name."""

    def __init__(self, chance, count, places, writes):
        before = Blocks(count)
        for block, length in sum(places.values(), []):
            before.put(block, chance.randbytes(length * BLOCK))
        super().__init__(chance, before, writes)
        self.places = places

    def files(self, name):
        out = [(name + ".data", self.data), (name + ".list", lines(self.writes))]
        for place, parts in self.places.items():
            contents = lambda medium: b"".join(medium.get(*part) for part in parts)
            out += [("%s-%s.%s" % (name, place, kind), body)
                    for kind, body in (("list", lines(parts)), ("before", contents(self.before)), ("after", contents(self.after)))]
        return out


class SealedMedium:
    """A medium of zeros, of which the guest makes a file system before the switch is closed (document 02, A4).

    `writes` are the (block, count) that pass afterwards, behind the file; each takes the first bytes of `data`.
    """

    def __init__(self, chance, count, writes):
        self.before, self.writes, self.sizes = Blocks(count), writes, [count]
        self.data = chance.randbytes(BLOCK * max(count for _, count in writes))

    def files(self, name):
        return [(name + ".data", self.data)]

    def written(self, formatted):
        """What the writes make of the file system's blocks."""
        after = formatted.copy()
        for block, count in self.writes:
            after.put(block, self.data[:count * BLOCK])
        return after


class LargestUnits:
    """Four units of the largest size (document 02, A7), zeros but for their ends, which are random. The guest writes the last block of each."""

    def __init__(self, chance):
        self.sizes, self.ends = [LARGEST] * 4, [(0, 2), (LARGEST - 2, 2)]
        self.before = Blocks(sum(self.sizes))
        for unit, (block, count) in itertools.product(range(4), self.ends):
            self.before.put(unit * LARGEST + block, chance.randbytes(count * BLOCK))
        self.after, self.data = self.before.copy(), [chance.randbytes(BLOCK) for _ in self.sizes]
        for unit, data in enumerate(self.data):
            self.after.put((unit + 1) * LARGEST - 1, data)

    def files(self, name):
        out = []
        for unit, data in enumerate(self.data):
            contents = lambda medium: b"".join(medium.get(unit * LARGEST + block, count) for block, count in self.ends)
            out += [("%s-%d.%s" % (name, unit, kind), body) for kind, body in (
                ("data", data), ("list", lines([(LARGEST - 1, 1)])))]
            out += [("%s-%d-ends.%s" % (name, unit, kind), body) for kind, body in (
                ("list", lines(self.ends)), ("before", contents(self.before)), ("after", contents(self.after)))]
        return out


def largest(chance):
    """Zeros, but for places filled at random: the ends, the blocks where an address of 12 or 16 bits would begin anew, others."""
    others = [(block, 1) for block in sorted(chance.sample(range(65538, LARGEST - 2), 6))]
    places = {"first": [(0, 2)], "4096": [(4094, 4)], "65536": [(65534, 4)], "last": [(LARGEST - 2, 2)], "others": others}
    return SparseMedium(chance, LARGEST, places, [(0, 1), (4095, 2), (65535, 2), *others[::2], (LARGEST - 1, 1)])


def media(seed):
    chance = random.Random(seed)
    filled = lambda blocks: Blocks(blocks, chance.randbytes(blocks * BLOCK))
    some = lambda blocks, n: sorted(chance.sample(range(1, blocks - 1), n))
    return {
        # The bench's 64 zero blocks. First and last block are always among the written ones.
        "bench": Medium(chance, Blocks(64), [(0, 1), *((block, 1) for block in some(64, 3)), (63, 1)]),
        # The 128 blocks of the bench sheet and of document 02, A8. The probe sends more of the data than it may get stored.
        "transport": Medium(chance, filled(128), [(5, 1), (20, 2)], spare=1),
        "one": Medium(chance, filled(1), [(0, 1)]),
        "seven": Medium(chance, filled(7), [(0, 3), (6, 1)]),
        "large": Medium(chance, filled(4096), [(0, 1), *((block, 1) for block in some(4000, 6)), (4032, 64)]),
        # As guest/switch.sh writes: one command, the disk's last 4,096 bytes, and the Write in whose middle the switch is closed.
        "sealed": SealedMedium(chance, 512, [(400, 1), (504, 8), (440, 32)]),
        # Behind the others, so that their blocks do not depend on how many random ones these take.
        "largest": largest(chance),
        "quarters": LargestUnits(chance),
        "districts": Districts(chance, [meter_csv(seed, 43 + district) for district in range(4)], meter_csv(seed)),
    }


def meter_csv(seed, meter=42):
    """A meter's export: what a clerk copies."""
    chance = random.Random(seed + meter - 41)
    rows, reading = ["meter;date;kWh"], 48211.0
    for day in range(1, 366):
        reading += chance.uniform(4, 19)
        rows.append("%012d;day %03d;%.3f" % (meter, day, reading))
    return "\r\n".join(rows + [""]).encode("ascii")
