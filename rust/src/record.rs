//! The C interface's record, and the ordinary device read from it and written to it.

use crate::device::{Device, Identity, Pending, Source, Stage};
use crate::pages::Page;
use crate::scsi::{Reply, Sense};
use crate::switch::Switch;
use crate::wrapper::Status;
use std::mem::{align_of, offset_of, size_of};

/// `collector_record` of the C header. Its padding is named, so that a record is all bytes; those reserved bytes
/// have no meaning, and comparison ignores them.
#[repr(C)]
#[derive(Clone, Copy, Debug)]
pub struct Record {
    pub number: u64,
    pub vendor: u16,
    pub product: u16,
    pub release: u16,
    pub reserved0: u16,
    pub residue: u32,
    pub place: u32,
    pub left: u32,
    pub value: u32,
    pub extra: u32,
    pub tag: u32,
    pub announced: u32,
    pub stage: u8,
    pub flags: u8,
    pub address: u8,
    /// The logical unit of the command in hand; 0 where none is.
    pub unit: u8,
    pub part: [u8; 512],
}

pub const SIZE: usize = 560;

const _: () = {
    assert!(size_of::<Record>() == SIZE && align_of::<Record>() == 8);
    assert!(offset_of!(Record, vendor) == 8 && offset_of!(Record, reserved0) == 14);
    assert!(offset_of!(Record, residue) == 16 && offset_of!(Record, value) == 28);
    assert!(offset_of!(Record, extra) == 32 && offset_of!(Record, tag) == 36);
    assert!(offset_of!(Record, announced) == 40 && offset_of!(Record, stage) == 44);
    assert!(offset_of!(Record, flags) == 45 && offset_of!(Record, address) == 46);
    assert!(offset_of!(Record, unit) == 47 && offset_of!(Record, part) == 48);
};

/// The bits of the record's flags.
pub mod flag {
    pub const CONFIGURED: u8 = 1;
    pub const HALT_IN: u8 = 2;
    pub const HALT_OUT: u8 = 4;
    pub const LOCKED: u8 = 8;
}

/// The record's stage numbers.
pub mod stage {
    pub const READY: u8 = 0;
    pub const DATA_OUT: u8 = 1;
    pub const DATA_IN: u8 = 2;
    pub const REQUEST_SENSE: u8 = 3;
    pub const INQUIRY: u8 = 4;
    pub const MODE_SENSE: u8 = 5;
    pub const READ_CAPACITY: u8 = 6;
    pub const PASSED: u8 = 7;
    pub const FAILED: u8 = 8;
    pub const PHASE_ERROR: u8 = 9;
    pub const PRODUCT_PAGE: u8 = 10;
    pub const COUNT: usize = 11;
}

impl PartialEq for Record {
    fn eq(&self, other: &Record) -> bool {
        self.meaning() == other.meaning()
    }
}

impl Eq for Record {}

impl Record {
    /// What a refused making leaves.
    pub const ZERO: Record = Record {
        number: 0,
        vendor: 0,
        product: 0,
        release: 0,
        reserved0: 0,
        residue: 0,
        place: 0,
        left: 0,
        value: 0,
        extra: 0,
        tag: 0,
        announced: 0,
        stage: stage::READY,
        flags: 0,
        address: 0,
        unit: 0,
        part: [0; 512],
    };

    /// The record's bytes as C sees them.
    pub fn as_bytes_mut(&mut self) -> &mut [u8; SIZE] {
        // SAFETY: a record has no padding of the compiler's, and any bytes are a record.
        unsafe { &mut *std::ptr::from_mut(self).cast() }
    }

    /// The record's bytes, zeros in the place of the reserved ones.
    fn meaning(&self) -> [u8; SIZE] {
        let mut record = Record { reserved0: 0, ..*self };
        *record.as_bytes_mut()
    }

    pub fn configured(&self) -> bool {
        self.flags & flag::CONFIGURED != 0
    }

    pub fn halt_in(&self) -> bool {
        self.flags & flag::HALT_IN != 0
    }

    pub fn halt_out(&self) -> bool {
        self.flags & flag::HALT_OUT != 0
    }

    pub fn locked(&self) -> bool {
        self.flags & flag::LOCKED != 0
    }

    /// Whether the status wrapper is due.
    pub fn status_due(&self) -> bool {
        matches!(self.stage, stage::PASSED..=stage::PHASE_ERROR)
    }

    /// `None` for a stage over 10, for a position that Mode Sense cannot have found, and for a product page that the
    /// device does not have.
    fn stage(&self) -> Option<Stage> {
        let data_in = |source| Stage::DataIn { source, place: self.place, left: self.left };
        Some(match self.stage {
            stage::READY => Stage::Ready,
            stage::DATA_OUT => Stage::DataOut { block: self.place, left: self.left, held: self.value },
            stage::DATA_IN => data_in(Source::Medium),
            stage::REQUEST_SENSE => {
                let [key, asc, ascq, _] = self.value.to_le_bytes();
                let sense = Sense { information: self.extra, ..Sense::new(key, asc, ascq) };
                data_in(Source::Reply(Reply::Sense(sense)))
            }
            stage::INQUIRY => data_in(Source::Reply(Reply::Inquiry)),
            stage::MODE_SENSE => {
                let position = u8::try_from(self.value).ok()?;
                data_in(Source::Reply(Reply::ModeSense(Switch::from_position(position)?)))
            }
            stage::READ_CAPACITY => data_in(Source::Reply(Reply::Capacity(self.value))),
            stage::PASSED => Stage::Status(Status::Passed),
            stage::FAILED => Stage::Status(Status::Failed),
            stage::PHASE_ERROR => Stage::Status(Status::PhaseError),
            stage::PRODUCT_PAGE => {
                let code = u8::try_from(self.value).ok()?;
                data_in(Source::Reply(Reply::Page(Page::from_code(code)?)))
            }
            _ => return None,
        })
    }

    /// Sets the fields of the stage, which were all zeros.
    fn set_stage(&mut self, stage: Stage) {
        match stage {
            Stage::Ready => self.stage = stage::READY,
            Stage::DataOut { block, left, held } => {
                (self.stage, self.place, self.left, self.value) = (stage::DATA_OUT, block, left, held);
            }
            Stage::DataIn { source, place, left } => {
                (self.place, self.left) = (place, left);
                self.set_source(source);
            }
            Stage::Status(status) => self.stage = stage::PASSED + status as u8,
        }
    }

    fn set_source(&mut self, source: Source) {
        self.stage = match source {
            Source::Medium => stage::DATA_IN,
            Source::Reply(Reply::Sense(sense)) => {
                self.value = u32::from_le_bytes([sense.key, sense.asc, sense.ascq, 0]);
                self.extra = sense.information;
                stage::REQUEST_SENSE
            }
            Source::Reply(Reply::Inquiry) => stage::INQUIRY,
            Source::Reply(Reply::Page(page)) => {
                self.value = page as u32;
                stage::PRODUCT_PAGE
            }
            Source::Reply(Reply::ModeSense(switch)) => {
                self.value = switch as u32;
                stage::MODE_SENSE
            }
            Source::Reply(Reply::Capacity(blocks)) => {
                self.value = blocks;
                stage::READ_CAPACITY
            }
        };
    }
}

impl Device {
    /// `None` where the record does not decode: flags over 15, a stage over 10, a place, left, value or extra that its
    /// stage does not use and that is not 0, a reply's sense of more than three bytes, a product page that is none of
    /// the device's, or a switch of Mode Sense neither open nor closed. Whether it fits together, and with the table of
    /// units, is for the events to ask.
    pub fn from_record(record: &Record) -> Option<Device> {
        let device = Device {
            identity: Identity {
                number: record.number,
                vendor: record.vendor,
                product: record.product,
                release: record.release,
            },
            address: record.address,
            configured: record.configured(),
            halt_in: record.halt_in(),
            halt_out: record.halt_out(),
            locked: record.locked(),
            pending: Pending {
                tag: record.tag,
                announced: record.announced,
                residue: record.residue,
                unit: record.unit,
            },
            stage: record.stage()?,
            part: record.part,
        };
        // What the device has no place for is lost on the way, so that it shows here unless it was 0.
        (device.to_record() == *record).then_some(device)
    }

    pub fn to_record(&self) -> Record {
        let mut record = Record {
            number: self.identity.number,
            vendor: self.identity.vendor,
            product: self.identity.product,
            release: self.identity.release,
            residue: self.pending.residue,
            tag: self.pending.tag,
            announced: self.pending.announced,
            flags: self.flags(),
            address: self.address,
            unit: self.pending.unit,
            part: self.part,
            ..Record::ZERO
        };
        record.set_stage(self.stage);
        record
    }

    fn flags(&self) -> u8 {
        let bit = |set, flag| if set { flag } else { 0 };
        bit(self.configured, flag::CONFIGURED)
            | bit(self.halt_in, flag::HALT_IN)
            | bit(self.halt_out, flag::HALT_OUT)
            | bit(self.locked, flag::LOCKED)
    }
}
