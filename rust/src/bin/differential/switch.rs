//! The units' write switches (document 02, A4 and A7), as someone moves them whatever the host does meanwhile.

use crate::event::Event;
use crate::random::Random;
use crate::state::State;
use ordinary::record::stage;
use ordinary::scsi::Sense;
use ordinary::unit::Unit;

pub const OPEN: u8 = 0;
pub const CLOSED: u8 = 1;

/// Whether one is moved now: at any time, more often while a Write's data is due, where many are to be closed or after one
/// refused a Write, and most often while Mode Sense's reply is due, which is only one packet.
pub fn is_moved(random: &mut Random, state: &State) -> bool {
    random.one_in(match state.stage {
        stage::MODE_SENSE => 4,
        stage::DATA_OUT => 16,
        _ if state.any_sense(|sense| *sense == Sense::WRITE_PROTECTED) => 6,
        _ if mostly_closed(state) && state.units.len() > 2 => 8,
        _ => 32,
    })
}

/// Mostly to open, so that Writes go on; now and then to a position that there is not. Mostly it is the switch of the
/// command's unit or of any other, now and then of one beyond the table.
pub fn moved(random: &mut Random, state: &State) -> Event {
    let unit = unit(random, state);
    let position = match random.below(16) {
        0 | 1 => no_position(random),
        2..=6 => CLOSED,
        7..=14 if mostly_closed(state) && unit != left_open(state) => CLOSED,
        _ => OPEN,
    };
    Event::Switch { position, unit }
}

/// Of every second collector of several units all switches but one are mostly closed.
fn mostly_closed(state: &State) -> bool {
    state.units.len() > 1 && state.number % 2 == 1
}

/// The unit whose switch such a collector has open: its number says which.
fn left_open(state: &State) -> u8 {
    (state.number / 2 % state.units.len() as u64) as u8
}

/// A unit for the event: beyond the table one in four.
pub fn unit(random: &mut Random, state: &State) -> u8 {
    let count = state.units.len().min(0xFF) as u64;
    let any = random.below(count.max(1)) as u8;
    match random.below(8) {
        0 => random.pick(&[count as u8, 4, 0xFF]),
        1 => (count + random.below(0x100 - count)) as u8,
        2..=4 => concerned(state).unwrap_or(any),
        _ => any,
    }
}

/// The unit of the command in hand; where none is, one that has refused a Write.
fn concerned(state: &State) -> Option<u8> {
    let refused = |unit: &Unit| unit.sense() == Sense::WRITE_PROTECTED;
    match state.stage {
        stage::READY => state.units.iter().position(refused).map(|unit| unit as u8),
        _ => Some(state.unit),
    }
}

/// A position that there is not. A device that looks at one bit alone takes some of them for open, some for closed.
pub fn no_position(random: &mut Random) -> u8 {
    let any = 2 + random.below(254) as u8;
    random.pick(&[2, 3, 0x80, 0x81, 0xFE, 0xFF, any])
}
