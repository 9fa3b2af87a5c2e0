//! The device's state, its making, its bus reset, and the checks that every event shares.

use crate::scsi::Reply;
use crate::switch::Switch;
use crate::unit::{self, Unit, MAX_UNITS};
use crate::wrapper::Status;

pub const BLOCK: usize = 512;
pub const PACKET: usize = 64;
/// The most blocks of a unit (document 02, A5 and A7).
pub const MAX_BLOCKS: u32 = 1_048_576;
pub const MAX_NUMBER: u64 = 999_999_999_999;

// Places in the medium and bytes still due are kept in 32 bits.
const _: () = assert!(MAX_UNITS as u64 * MAX_BLOCKS as u64 * BLOCK as u64 <= u32::MAX as u64);

/// The refusals, with their numbers in document 01's table and those that document 02 adds to it.
#[derive(Clone, Copy, Debug, PartialEq, Eq)]
pub enum Refusal {
    Record = 10,
    Medium = 11,
    Buffer = 12,
    Packet = 13,
    Setup = 14,
    Number = 15,
    /// The switch event's unit is beyond the table (document 02, A7).
    Unit = 18,
}

/// What an event gives back (§ Numbers that come back).
#[derive(Clone, Copy, Debug, PartialEq, Eq)]
pub enum Answer {
    Data(u32),
    Ack,
    Nak,
    Stall,
    Silent,
    Refused(Refusal),
}

impl Answer {
    /// Document 01's number.
    pub fn number(self) -> u32 {
        match self {
            Answer::Data(_) => 0,
            Answer::Ack => 1,
            Answer::Nak => 2,
            Answer::Stall => 3,
            Answer::Silent => 4,
            Answer::Refused(refusal) => refusal as u32,
        }
    }

    /// The bytes written to the lent buffer.
    pub fn count(self) -> u32 {
        match self {
            Answer::Data(count) => count,
            _ => 0,
        }
    }
}

/// The numbers given at making.
#[derive(Clone, Copy, Debug, PartialEq, Eq)]
pub struct Identity {
    pub number: u64,
    pub vendor: u16,
    pub product: u16,
    pub release: u16,
}

impl Identity {
    /// The collector number as exactly twelve decimal digits, zeros in front: the USB serial string and the product
    /// pages tell the same (document 02, A2).
    pub fn digits(&self) -> [u8; 12] {
        let mut text = [0; 12];
        let mut rest = self.number;
        for digit in text.iter_mut().rev() {
            *digit = b'0' + (rest % 10) as u8;
            rest /= 10;
        }
        text
    }
}

/// The command in hand: what its status wrapper will tell, and the unit that it is for.
#[derive(Clone, Copy, Debug, PartialEq, Eq)]
pub(crate) struct Pending {
    pub tag: u32,
    pub announced: u32,
    pub residue: u32,
    pub unit: u8,
}

impl Pending {
    pub const NONE: Pending = Pending { tag: 0, announced: 0, residue: 0, unit: 0 };
}

/// Where data-in bytes come from.
#[derive(Clone, Copy, Debug, PartialEq, Eq)]
pub(crate) enum Source {
    Medium,
    Reply(Reply),
}

/// What the bulk pipes are at.
#[derive(Clone, Copy, Debug, PartialEq, Eq)]
pub(crate) enum Stage {
    /// A command wrapper is due.
    Ready,
    /// `left` blocks of the unit from `block` on are due; `held` bytes of the first are in the part block.
    DataOut { block: u32, left: u32, held: u32 },
    /// `left` bytes of the source from `place` on are due; the medium's places are the unit's own.
    DataIn { source: Source, place: u32, left: u32 },
    /// The status wrapper is due.
    Status(Status),
}

/// The collector's drive. The table of its units and the medium are lent to it event by event.
#[derive(Clone, Debug, PartialEq, Eq)]
pub struct Device {
    pub(crate) identity: Identity,
    pub(crate) address: u8,
    pub(crate) configured: bool,
    pub(crate) halt_in: bool,
    pub(crate) halt_out: bool,
    /// Clear Feature has no effect until the command is dropped.
    pub(crate) locked: bool,
    /// Where no command is in hand only its unit is looked at, which is in the table even then.
    pub(crate) pending: Pending,
    pub(crate) stage: Stage,
    /// The block being gathered; zeros where none is.
    pub(crate) part: [u8; BLOCK],
}

impl Device {
    /// A fresh device over the table's units and a medium of their size. Senses and switches of the table are not looked
    /// at: once the device is made, every sense is zero and every switch open. A refusal keeps the table.
    pub fn make(identity: Identity, units: &mut [Unit], medium: &[u8]) -> Result<Device, Refusal> {
        let blocks = unit::parts(units).ok_or(Refusal::Record)?;
        if medium.len() != blocks as usize * BLOCK {
            return Err(Refusal::Medium);
        }
        if identity.number > MAX_NUMBER {
            return Err(Refusal::Number);
        }
        unit::clear_senses(units);
        units.iter_mut().for_each(|unit| unit.write_switch = Switch::Open as u8);
        Ok(Device {
            identity,
            address: 0,
            configured: false,
            halt_in: false,
            halt_out: false,
            locked: false,
            pending: Pending::NONE,
            stage: Stage::Ready,
            part: [0; BLOCK],
        })
    }

    #[inline(never)]
    pub fn bus_reset(&mut self, units: &mut [Unit]) -> Answer {
        if !self.fits(units) {
            return Answer::Refused(Refusal::Record);
        }
        self.drop_command(units);
        self.halt_in = false;
        self.halt_out = false;
        self.address = 0;
        self.configured = false;
        Answer::Ack
    }

    /// § Control requests, "Dropping the command means". The halts and the switches stay; the senses of all units go.
    pub(crate) fn drop_command(&mut self, units: &mut [Unit]) {
        self.stage = Stage::Ready;
        self.pending = Pending::NONE;
        self.locked = false;
        self.part = [0; BLOCK];
        unit::clear_senses(units);
    }

    /// Halts both pipes until the command is dropped.
    pub(crate) fn lock(&mut self) {
        self.halt_in = true;
        self.halt_out = true;
        self.locked = true;
    }

    /// Whether state and table fit together. Both come from outside with each event, so that each event asks.
    pub(crate) fn fits(&self, units: &[Unit]) -> bool {
        self.blocks(units).is_some()
    }

    /// The blocks of all units; `None` where state and table do not fit together.
    pub(crate) fn blocks(&self, units: &[Unit]) -> Option<u32> {
        let blocks = unit::parts(units)?;
        let unit = units.get(usize::from(self.pending.unit))?;
        let fits = self.identity.number <= MAX_NUMBER
            && self.address <= 0x7F
            && (self.configured || self.is_idle(units))
            && (!self.locked || (self.halt_in && self.halt_out))
            && self.stage.fits(unit.blocks, self.pending)
            && units.iter().all(|unit| unit.switch().is_some());
        fits.then_some(blocks)
    }

    /// What an unconfigured device is.
    fn is_idle(&self, units: &[Unit]) -> bool {
        self.stage == Stage::Ready
            && !(self.halt_in || self.halt_out || self.locked)
            && units.iter().all(|unit| unit.sense().is_zero())
    }
}

impl Stage {
    /// The unit's number of blocks is within the limit, so that its bytes fit in 32 bits.
    fn fits(&self, blocks: u32, pending: Pending) -> bool {
        match *self {
            Stage::Ready => true,
            Stage::DataOut { block, left, held } => {
                u64::from(block) + u64::from(left) <= u64::from(blocks)
                    && held < BLOCK as u32
                    && held.is_multiple_of(PACKET as u32)
                    && pending.covers(left * BLOCK as u32)
            }
            Stage::DataIn { source, place, left } => {
                let size = match source {
                    Source::Medium => blocks * BLOCK as u32,
                    Source::Reply(reply) => reply.size(),
                };
                u64::from(place) + u64::from(left) <= u64::from(size) && pending.covers(left)
            }
            Stage::Status(_) => pending.covers(0),
        }
    }
}

impl Pending {
    /// Whether the bytes still due are at most the residue, and that at most the announced length.
    fn covers(&self, due: u32) -> bool {
        due <= self.residue && self.residue <= self.announced
    }
}
