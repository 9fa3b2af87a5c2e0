//! The write switch of a unit (document 02, A4 and A7): its positions, and the event that moves it.

use crate::device::{Answer, Device, Refusal};
use crate::unit::Unit;

/// The sealed switch's position. Nothing that comes over the bus moves it, no reset either.
#[derive(Clone, Copy, Debug, PartialEq, Eq)]
pub enum Switch {
    Open = 0,
    /// Writes fail.
    Closed = 1,
}

impl Switch {
    /// `None` for a number that is no position.
    pub fn from_position(position: u8) -> Option<Switch> {
        match position {
            0 => Some(Switch::Open),
            1 => Some(Switch::Closed),
            _ => None,
        }
    }
}

impl Device {
    /// Taken in every state, and nothing else changes: a command in hand goes on as it began. That the unit is in the
    /// table is asked last.
    #[inline(never)]
    pub fn set_switch(&mut self, units: &mut [Unit], position: u8, unit: u8) -> Answer {
        if !self.fits(units) || Switch::from_position(position).is_none() {
            return Answer::Refused(Refusal::Record);
        }
        let Some(unit) = units.get_mut(usize::from(unit)) else {
            return Answer::Refused(Refusal::Unit);
        };
        unit.write_switch = position;
        Answer::Ack
    }
}
