//! A collector of four units (document 02, A7): senses apart, units that there are not, switches apart, resets in a Write.
//!
//! Block 5 of each unit is to get a block of the data, unit 0 the first one; block 40 of unit 2 the fifth. No other may change.

use crate::bot::{cbw, mass_storage_reset, read_10, read_block, verify_10, write_10, BLOCK, TEST_UNIT_READY};
use crate::information::{other, out_of_range, Step, DROPS, SENSE};
use crate::switch::{turn_of, CLOSED, OPEN};
use crate::{equal, passes, Check, Outcome, Probe, INQUIRY};

pub const CHECKS: [(&str, Check); 11] = [
    ("unit-max-lun", Probe::unit_max_lun),
    ("unit-blocks-apart", Probe::unit_blocks_apart),
    ("unit-sense-not-shared", Probe::unit_sense_not_shared),
    ("unit-senses-apart", Probe::unit_senses_apart),
    ("unit-senses-stay", Probe::unit_senses_stay),
    ("unit-senses-after-drops", Probe::unit_senses_after_drops),
    ("unit-beyond-locks", Probe::unit_beyond_locks),
    ("unit-switches-apart", Probe::unit_switches_apart),
    ("unit-writes-by-turns", Probe::unit_writes_by_turns),
    ("unit-reset-in-write", Probe::unit_reset_in_write),
    ("unit-port-reset-in-write", Probe::unit_port_reset_in_write),
];

/// The units' numbers of blocks, as parts/districts.py has them.
const SIZES: [u32; 4] = [127, 101, 1024, 333];
/// A block that every unit has, and the place of a Write that is cut in unit 2.
const EACH: u32 = 5;
const CUT: u32 = 40;

fn units() -> impl DoubleEndedIterator<Item = u8> + Clone {
    0..SIZES.len() as u8
}

impl Probe {
    fn size(&self, unit: u8) -> u32 {
        SIZES[usize::from(unit)]
    }

    /// A unit's block as it was, from its part of the medium.
    fn block_of(&self, unit: u8, block: u32) -> &[u8] {
        let first: u32 = SIZES[..usize::from(unit)].iter().sum();
        self.block((first + block) as usize)
    }

    fn datum(&self, number: usize) -> &[u8] {
        &self.data[number * BLOCK..(number + 1) * BLOCK]
    }

    fn reads(&self, unit: u8, tag: u32, block: u32, expected: &[u8]) -> Step {
        let read = passes("a read", read_block(&self.device, unit, tag, block))?;
        equal(&format!("unit {unit}, block {block}"), &read, expected)
    }

    /// A range failure that names a block of this unit alone.
    fn fails(&self, unit: u8, tag: u32) -> Step {
        self.ends_for(unit, tag, &read_10(self.size(unit) - 1, 2), 1)
    }

    /// Request Sense of this unit, which clears its sense.
    fn has(&self, unit: u8, tag: u32, expected: &[u8]) -> Step {
        self.request_sense_for(unit, tag, SENSE as u8, expected).map_err(|why| format!("unit {unit}: {why}"))
    }

    fn has_own_failure(&self, unit: u8, tag: u32) -> Step {
        self.has(unit, tag, &out_of_range(self.size(unit)))
    }

    fn has_none(&self, unit: u8, tag: u32) -> Step {
        self.has(unit, tag, &other(0, 0))
    }

    fn unit_max_lun(&self) -> Outcome {
        let highest = passes("Get Max LUN", self.device.control(0xA1, 0xFE, 0, 0, 1))?;
        equal("Get Max LUN", &highest, &[SIZES.len() as u8 - 1])?;
        Ok("the highest unit is 3".into())
    }

    /// Ends of each unit's part, where a wrong first block or size would show the neighbour's.
    fn unit_blocks_apart(&self) -> Outcome {
        for (tag, unit) in (0xA00..).step_by(2).zip(units()) {
            let last = self.size(unit) - 1;
            self.reads(unit, tag, 0, self.block_of(unit, 0))?;
            self.reads(unit, tag + 1, last, self.block_of(unit, last))?;
        }
        Ok("first and last block of each unit".into())
    }

    /// One unit has failed: no other has a sense.
    fn unit_sense_not_shared(&self) -> Outcome {
        for (tag, failed) in (0xA10..).step_by(8).zip(units()) {
            self.fails(failed, tag)?;
            for (at, unit) in (1..).zip(units().filter(|unit| *unit != failed)) {
                self.has_none(unit, tag + at)?;
            }
            self.ends_for(failed, tag + 4, &TEST_UNIT_READY, 0)?;
        }
        Ok("70 and zeros in the units that did not fail".into())
    }

    /// Each has failed in its own way, and tells its own failure, once, in whatever order they are asked.
    fn unit_senses_apart(&self) -> Outcome {
        for (tag, unit) in (0xA40..).zip(units()) {
            self.fails(unit, tag)?;
        }
        self.ends_for(1, 0xA44, &[0xC0, 0, 0, 0, 0, 0], 1)?;
        self.has_own_failure(3, 0xA45)?;
        self.has(1, 0xA46, &other(5, 0x20))?;
        self.has_own_failure(0, 0xA47)?;
        self.has_own_failure(2, 0xA48)?;
        for (tag, unit) in (0xA49..).zip(units()) {
            self.has_none(unit, tag)?;
        }
        Ok("each unit tells its own failure, once".into())
    }

    /// Commands of other units that pass, with data and without, take no sense away.
    fn unit_senses_stay(&self) -> Outcome {
        for (tag, failed) in (0xA50..).step_by(32).zip(units()) {
            self.fails(failed, tag)?;
            for (tag, unit) in (tag + 1..).step_by(8).zip(units().filter(|unit| *unit != failed)) {
                self.ends_for(unit, tag, &TEST_UNIT_READY, 0)?;
                self.ends_for(unit, tag + 1, &verify_10(0, 1), 0)?;
                self.reads(unit, tag + 2, EACH, self.block_of(unit, EACH))?;
                self.begins(&cbw(tag + 3, 36, true, unit, &[0x12, 0, 0, 0, 36, 0]))?;
                equal("Inquiry", &passes("data", self.device.bulk_in(36, None))?, INQUIRY)?;
                self.ends_as(tag + 3, 0, 0)?;
            }
            self.has_own_failure(failed, tag + 31)?;
        }
        Ok("kept over passed commands of the other units".into())
    }

    /// Each drop of the command takes all senses away.
    fn unit_senses_after_drops(&self) -> Outcome {
        for (tag, dropped) in (0xB00..).step_by(8).zip(DROPS) {
            for (at, unit) in (0..).zip(units()) {
                self.fails(unit, tag + at)?;
            }
            dropped(self)?;
            for (at, unit) in (4..).zip(units()) {
                self.has_none(unit, tag + at)?;
            }
        }
        Ok("70 and zeros in all units after Mass Storage Reset, Set Configuration, two locks and a port reset".into())
    }

    /// Units 4 to 15 are not in the table; with bits 4 to 7 of its byte set, the wrapper is not readable.
    fn unit_beyond_locks(&self) -> Outcome {
        let broken = (4..=15).chain((4..8).map(|bit| 1 << bit)).chain([0x13, 0xFF]);
        let mut count = 0;
        for unit in broken {
            self.locked(&cbw(0xB30, 0, false, unit, &TEST_UNIT_READY))
                .map_err(|why| format!("unit {unit:02X}: {why}"))?;
            count += 1;
        }
        Ok(format!("{count} units, each shut until reset recovery"))
    }

    fn unit_shows(&self, unit: u8, tag: u32, expected: &[u8]) -> Step {
        self.begins(&cbw(tag, 4, true, unit, &[0x1A, 0, 0x3F, 0, 4, 0]))?;
        self.mode_sense_ends(tag, expected).map_err(|why| format!("unit {unit}: {why}"))
    }

    /// One closed, the others open: Mode Sense, and a Write of a block, which fails with 07/27/00 in its own unit.
    fn unit_switches_apart(&self) -> Outcome {
        for (tag, closed) in (0xB40..).step_by(8).zip(units()) {
            turn_of(closed, "closed")?;
            for (at, unit) in (0..).zip(units()) {
                self.unit_shows(unit, tag + at, if unit == closed { &CLOSED } else { &OPEN })?;
            }
            self.ends_for(closed, tag + 4, &write_10(EACH, 1), 1)?;
            self.has_none((closed + 1) % 4, tag + 5)?;
            self.has(closed, tag + 6, &other(7, 0x27))?;
            turn_of(closed, "open")?;
        }
        Ok("80 and 07/27/00 of the closed one alone".into())
    }

    /// The same block of each, one after the other; then all are read. The next unit's switch is closed in the middle of each Write.
    fn unit_writes_by_turns(&self) -> Outcome {
        for (tag, unit) in (0xB60..).zip(units()) {
            let (half, rest) = self.datum(unit.into()).split_at(BLOCK / 2);
            self.begins(&cbw(tag, BLOCK as u32, false, unit, &write_10(EACH, 1)))?;
            passes("half a block", self.device.bulk_out(half, None))?;
            turn_of((unit + 1) % 4, "closed")?;
            passes("the rest", self.device.bulk_out(rest, None))?;
            self.ends_as(tag, 0, 0)?;
            turn_of((unit + 1) % 4, "open")?;
        }
        for (tag, unit) in (0xB64..).zip(units().rev()) {
            self.reads(unit, tag, EACH, self.datum(unit.into()))?;
        }
        Ok("each unit has its own block".into())
    }

    /// Nine packets of two blocks: the first block arrived, the second did not. The depot looks at all other blocks afterwards.
    fn unit_reset_in_write(&self) -> Outcome {
        self.begins(&cbw(0xB70, 2 * BLOCK as u32, false, 2, &write_10(CUT, 2)))?;
        passes("9 packets", self.device.bulk_out(&self.data[4 * BLOCK..][..9 * 64], None))?;
        passes("Mass Storage Reset", mass_storage_reset(&self.device))?;
        self.reads(2, 0xB71, CUT, self.datum(4))?;
        self.reads(2, 0xB72, CUT + 1, self.block_of(2, CUT + 1))?;
        for (tag, unit) in (0xB73..).zip([0, 1, 3]) {
            self.reads(unit, tag, CUT, self.block_of(unit, CUT))?;
        }
        Ok("one block stored, in unit 2".into())
    }

    /// The last check: at a reset of the port the kernel gives the interface back to its driver. The depot looks at the blocks afterwards.
    fn unit_port_reset_in_write(&self) -> Outcome {
        self.begins(&cbw(0xB78, BLOCK as u32, false, 1, &write_10(11, 1)))?;
        passes("half a block", self.device.bulk_out(&self.datum(5)[..BLOCK / 2], None))?;
        passes("port reset", self.device.reset())?;
        Ok("the port is reset after half a block for unit 1".into())
    }
}
