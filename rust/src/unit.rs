//! The logical units (document 02, A7): each with its own part of the medium, its own sense and its own write switch, in
//! a table that is lent to every event.

use crate::device::{BLOCK, MAX_BLOCKS};
use crate::scsi::Sense;
use crate::switch::Switch;
use std::mem::{align_of, offset_of, size_of};

/// The most units of a table.
pub const MAX_UNITS: usize = 4;

/// `collector_unit` of the C header. Its padding is named, so that a unit is all bytes; those reserved bytes have no
/// meaning, and comparison ignores them.
#[repr(C)]
#[derive(Clone, Copy, Debug)]
pub struct Unit {
    /// The unit's first block in the medium.
    pub first: u32,
    pub blocks: u32,
    pub sense_key: u8,
    pub sense_asc: u8,
    pub sense_ascq: u8,
    pub reserved0: u8,
    pub sense_information: u32,
    pub write_switch: u8,
    pub reserved1: [u8; 3],
}

pub const SIZE: usize = 20;

const _: () = {
    assert!(size_of::<Unit>() == SIZE && align_of::<Unit>() == 4);
    assert!(offset_of!(Unit, first) == 0 && offset_of!(Unit, blocks) == 4);
    assert!(offset_of!(Unit, sense_key) == 8 && offset_of!(Unit, sense_asc) == 9);
    assert!(offset_of!(Unit, sense_ascq) == 10 && offset_of!(Unit, reserved0) == 11);
    assert!(offset_of!(Unit, sense_information) == 12 && offset_of!(Unit, write_switch) == 16);
    assert!(offset_of!(Unit, reserved1) == 17);
};

impl PartialEq for Unit {
    fn eq(&self, other: &Unit) -> bool {
        self.meaning() == other.meaning()
    }
}

impl Eq for Unit {}

impl Unit {
    /// A unit of so many blocks from `first` on, with no sense and its switch open.
    pub const fn new(first: u32, blocks: u32) -> Unit {
        Unit {
            first,
            blocks,
            sense_key: 0,
            sense_asc: 0,
            sense_ascq: 0,
            reserved0: 0,
            sense_information: 0,
            write_switch: Switch::Open as u8,
            reserved1: [0; 3],
        }
    }

    /// The unit's bytes as C sees them.
    pub fn as_bytes_mut(&mut self) -> &mut [u8; SIZE] {
        // SAFETY: a unit has no padding of the compiler's, and any bytes are a unit.
        unsafe { &mut *std::ptr::from_mut(self).cast() }
    }

    /// The unit's bytes, zeros in the place of the reserved ones.
    fn meaning(&self) -> [u8; SIZE] {
        let mut unit = Unit { reserved0: 0, reserved1: [0; 3], ..*self };
        *unit.as_bytes_mut()
    }

    pub fn sense(&self) -> Sense {
        let information = self.sense_information;
        Sense { information, ..Sense::new(self.sense_key, self.sense_asc, self.sense_ascq) }
    }

    pub fn set_sense(&mut self, sense: Sense) {
        (self.sense_key, self.sense_asc, self.sense_ascq) = (sense.key, sense.asc, sense.ascq);
        self.sense_information = sense.information;
    }

    /// `None` for a position that there is not: such a table does not fit.
    pub fn switch(&self) -> Option<Switch> {
        Switch::from_position(self.write_switch)
    }

    /// Whether the write switch is closed.
    pub fn closed(&self) -> bool {
        self.switch() == Some(Switch::Closed)
    }

    /// Where a byte of the unit's part stands in the medium.
    pub(crate) fn byte(&self, place: u32) -> usize {
        self.first as usize * BLOCK + place as usize
    }
}

/// The units in their order, sized so, their parts one behind the other from block 0 on.
pub fn table(sizes: &[u32]) -> Vec<Unit> {
    let mut first = 0;
    let mut unit = |blocks: &u32| {
        let unit = Unit::new(first, *blocks);
        first += blocks;
        unit
    };
    sizes.iter().map(&mut unit).collect()
}

/// The blocks of all units; `None` unless there are 1 to 4 of them, each of a size within the limit, their parts
/// following on from block 0. More than four units are not looked at.
pub(crate) fn parts(units: &[Unit]) -> Option<u32> {
    if !(1..=MAX_UNITS).contains(&units.len()) {
        return None;
    }
    let mut end = 0;
    for unit in units {
        if unit.first != end || !(1..=MAX_BLOCKS).contains(&unit.blocks) {
            return None;
        }
        end += unit.blocks;
    }
    Some(end)
}

/// Every sense is cleared; the switches stay.
pub(crate) fn clear_senses(units: &mut [Unit]) {
    units.iter_mut().for_each(|unit| unit.set_sense(Sense::NONE));
}
