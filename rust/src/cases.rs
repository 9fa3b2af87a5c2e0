//! The thirteen meetings of what the host announces (H) with what the device has (D): none (n), in (i), out (o).

use crate::device::BLOCK;
use crate::scsi::Data;
use crate::wrapper::Cbw;
use std::cmp::Ordering;

/// The cases in the order and with the numbers of Bulk-Only Transport 1.0, 6.7.
#[derive(Clone, Copy, Debug, PartialEq, Eq)]
pub enum Case {
    HnDn = 1,
    HnDi,
    HnDo,
    HiOverDn,
    HiOverDi,
    HiEqualDi,
    HiUnderDi,
    HiDo,
    HoOverDn,
    HoDi,
    HoOverDo,
    HoEqualDo,
    HoUnderDo,
}

impl Case {
    pub const ALL: [Case; 13] = [
        Case::HnDn,
        Case::HnDi,
        Case::HnDo,
        Case::HiOverDn,
        Case::HiOverDi,
        Case::HiEqualDi,
        Case::HiUnderDi,
        Case::HiDo,
        Case::HoOverDn,
        Case::HoDi,
        Case::HoOverDo,
        Case::HoEqualDo,
        Case::HoUnderDo,
    ];

    /// A failed command has no data, so `data` is then `Data::None`.
    pub fn of(cbw: &Cbw, data: &Data) -> Case {
        match (cbw.announced, cbw.data_in, *data) {
            (0, _, Data::None) => Case::HnDn,
            (0, _, Data::Write { .. }) => Case::HnDo,
            (0, _, _) => Case::HnDi,
            (_, true, Data::None) => Case::HiOverDn,
            (_, true, Data::Write { .. }) => Case::HiDo,
            (announced, true, Data::Reply { length, .. }) => Case::in_in(announced, length),
            (announced, true, Data::Read { count, .. }) => Case::in_in(announced, bytes(count)),
            (_, false, Data::None) => Case::HoOverDn,
            (announced, false, Data::Write { count, .. }) => Case::out_out(announced, bytes(count)),
            (_, false, _) => Case::HoDi,
        }
    }

    fn in_in(announced: u32, length: u32) -> Case {
        match announced.cmp(&length) {
            Ordering::Greater => Case::HiOverDi,
            Ordering::Equal => Case::HiEqualDi,
            Ordering::Less => Case::HiUnderDi,
        }
    }

    fn out_out(announced: u32, length: u32) -> Case {
        match announced.cmp(&length) {
            Ordering::Greater => Case::HoOverDo,
            Ordering::Equal => Case::HoEqualDo,
            Ordering::Less => Case::HoUnderDo,
        }
    }

    /// Whether host and device cannot agree, so that no data moves and the status is 2.
    pub fn is_phase_error(self) -> bool {
        matches!(self, Case::HnDi | Case::HnDo | Case::HiUnderDi | Case::HiDo | Case::HoDi | Case::HoUnderDo)
    }
}

/// A count of blocks is at most 65,535, so its bytes fit in 32 bits.
fn bytes(count: u32) -> u32 {
    count * BLOCK as u32
}
