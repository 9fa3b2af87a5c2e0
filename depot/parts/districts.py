"""The collector of four districts (document 02, A7): its units, what the guest writes to each, and what its medium must then be."""
from .blocks import BLOCK, Blocks
from .files import has_file

# As probe/src/units.rs has them. No unit but the first begins at a multiple of a page's eight blocks.
SIZES = [127, 101, 1024, 333]
# What the probe writes: this block of each unit, and one of two blocks of unit 2.
EACH, CUT = 5, (2, 40)


class Districts:
    """`data` has a pattern for each unit, `probe_data` what the probe writes, a block each, `csvs` a district's export each."""

    def __init__(self, chance, csvs, other_csv):
        random = lambda blocks: chance.randbytes(blocks * BLOCK)
        self.sizes, self.csvs, self.other_csv = SIZES, csvs, other_csv
        self.before = Blocks(sum(SIZES), random(sum(SIZES)))
        self.data = [random(blocks) for blocks in SIZES]
        self.probe_data = random(len(SIZES) + 2)

    def first(self, unit):
        return sum(SIZES[:unit])

    def part(self, medium, unit):
        """A unit's own part of a medium, whose blocks have the unit's numbers."""
        return Blocks(SIZES[unit], medium.get(self.first(unit), SIZES[unit]))

    def written(self, units):
        """The medium with these units' patterns."""
        medium = self.before.copy()
        for unit in units:
            medium.put(self.first(unit), self.data[unit])
        return medium

    def probed(self):
        """All patterns, and what the probe's Writes leave."""
        medium = self.written(range(len(SIZES)))
        places = [(unit, EACH) for unit in range(len(SIZES))] + [CUT]
        for at, (unit, block) in enumerate(places):
            medium.put(self.first(unit) + block, self.probe_data[at * BLOCK:(at + 1) * BLOCK])
        return medium

    def files(self, name):
        """For the guest: sizes, and each unit's blocks before, its pattern, and its blocks after the probe."""
        out = [(name + ".sizes", "".join("%d\n" % blocks for blocks in SIZES).encode()), (name + ".data", self.probe_data)]
        for unit, blocks in enumerate(SIZES):
            whole = lambda medium: medium.get(self.first(unit), blocks)
            out += [("%s-%d.before" % (name, unit), whole(self.before)), ("%s-%d.data" % (name, unit), self.data[unit]),
                    ("%s-%d.probed" % (name, unit), whole(self.probed())), ("district-%d.csv" % unit, self.csvs[unit])]
        return out

    def written_by(self, state):
        """The medium before and after the guest's last writes; None where a file system is on it, whose bytes nobody knows beforehand."""
        if state.startswith("written-"):
            unit = int(state.removeprefix("written-"))
            return self.written(range(unit)), self.written(range(unit + 1))
        return (self.written(range(len(SIZES))), self.probed()) if state == "probed" else None

    def exports(self, saved, sealed=None):
        """Whether each unit has its own district's CSV and no other's, and each but the sealed one the file that came later: what is
        wrong, as lines."""
        wrong = []
        for unit in range(len(SIZES)):
            part = self.part(saved, unit)
            there = [district for district, csv in enumerate(self.csvs) if has_file(part, "METER", csv)]
            if there != [unit]:
                wrong.append("unit %d has the CSVs of %s" % (unit, there))
            if has_file(part, "LATER", self.other_csv) != (sealed is not None and unit != sealed):
                wrong.append("unit %d and the later file" % unit)
        return wrong
