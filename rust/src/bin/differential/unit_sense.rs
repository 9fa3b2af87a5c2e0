//! What a run has met of the units' senses beside one another (document 02, A7): each is its own unit's until that is
//! asked, and all are dropped together.

use crate::coverage::{accept, unit_of, verdict, FAILED, PASSED, PHASE_ERROR};
use crate::event::Event;
use crate::own::MOST;
use crate::pair::Played;
use crate::sense_drop::CAUSES;
use crate::state::State;
use crate::table::Table;
use crate::units::{names, row, COUNTS, FIRST_OF_SEVERAL, UNITS};
use ordinary::device::PACKET;
use ordinary::record::stage;
use ordinary::scsi::code;
use ordinary::unit::Unit;
use ordinary::wrapper::Cbw;

/// What other units' commands came between a unit's failure and its Request Sense.
const BETWEEN: [&str; 4] = ["another failed", "another passed", "another asked", "each other unit"];
/// What came while another unit held a sense.
const BESIDE: [&str; 4] = ["failed", "Request Sense", "phase error", "data of a wrong length"];
const UNIT_COUNT: usize = MOST as usize;

/// What came since a unit's failure: the first three of `BETWEEN`, and the units that had commands.
#[derive(Clone, Copy, Default)]
struct Since {
    came: [bool; 3],
    units: [bool; UNIT_COUNT],
}

#[derive(Default)]
pub struct UnitSenses {
    /// By unit; `None` where Request Sense came, or no failure yet.
    since: [Option<Since>; UNIT_COUNT],
    between: [[u64; BETWEEN.len()]; UNITS.len()],
    beside: [[u64; BESIDE.len()]; UNITS.len()],
    /// Drops of two senses or more, by cause and number of units.
    drops: [[u64; COUNTS.len() - 1]; CAUSES.len()],
}

impl UnitSenses {
    /// Notes an event that was played on a device that was in the state of `before`.
    pub fn note(&mut self, before: &State, event: &Event, played: &Played) {
        let (count, number) = (before.units.len(), played.answer.number);
        let cause = CAUSES.iter().position(|(_, is)| number == 1 && is(event));
        match (event, number, cause) {
            (_, _, Some(cause)) => {
                if before.senses() > 1 {
                    self.drops[cause][count - 2] += 1;
                }
                self.forget();
            }
            (Event::BulkOut { packet, .. }, 1, _) if before.stage == stage::READY => {
                accept(before, packet).iter().for_each(|cbw| self.note_wrapper(before, cbw));
            }
            (Event::BulkOut { packet, .. }, 1, _) if packet.len() != PACKET => {
                self.note_beside(before, before.unit, 3);
            }
            _ => {}
        }
    }

    /// What comes now is not part of the lists.
    pub fn forget(&mut self) {
        self.since = Default::default();
    }

    /// Notes a command of a unit while another one holds a sense.
    fn note_beside(&mut self, before: &State, unit: u8, column: usize) {
        let held = |(at, other): (u8, &Unit)| at != unit && !other.sense().is_zero();
        if let (Some(row), true) = (row(before.units.len(), unit), (0..).zip(&before.units).any(held)) {
            self.beside[row][column] += 1;
        }
    }

    fn note_wrapper(&mut self, before: &State, cbw: &Cbw) {
        let asks = cbw.block[0] == code::REQUEST_SENSE;
        let (came, column) = match verdict(before, cbw).1 {
            PHASE_ERROR => (None, Some(2)),
            FAILED => (Some(0), Some(0)),
            PASSED if asks => (Some(2), Some(1)),
            _ => (Some(1), None),
        };
        if let Some(column) = column {
            self.note_beside(before, cbw.unit, column);
        }
        let Some(came) = came else { return };
        for (unit, since) in (0..).zip(&mut self.since) {
            if let (true, Some(since)) = (unit != cbw.unit, since) {
                since.came[came] = true;
                since.units[usize::from(cbw.unit)] = true;
            }
        }
        if came == 2 && !unit_of(before, cbw).sense().is_zero() {
            self.end(before.units.len(), cbw.unit);
        }
        self.since[usize::from(cbw.unit)] = (came == 0).then(Since::default);
    }

    /// A unit's own sense was still there when it was asked.
    fn end(&mut self, count: usize, unit: u8) {
        let (Some(row), Some(since)) = (row(count, unit), self.since[usize::from(unit)]) else { return };
        let others = (0..count).filter(|other| *other != usize::from(unit));
        let each = count > 1 && others.into_iter().all(|other| since.units[other]);
        for (met, count) in since.came.iter().chain([&each]).zip(&mut self.between[row]) {
            *count += u64::from(*met);
        }
    }

    fn tables(&self) -> [Table<'_>; 3] {
        let names = &names()[FIRST_OF_SEVERAL..];
        let between = self.between[FIRST_OF_SEVERAL..].iter().map(|counts| &counts[..]);
        let beside = self.beside[FIRST_OF_SEVERAL..].iter().map(|counts| &counts[..]);
        let drops = CAUSES.iter().zip(&self.drops).map(|((name, _), counts)| (name, &counts[..]));
        [
            Table::new(
                "between a unit's failure and its Request Sense, by other units' commands",
                BETWEEN,
                names.iter().zip(between),
            ),
            Table::new("commands while another unit holds a sense", BESIDE, names.iter().zip(beside)),
            Table::new("drops of two or more units' senses", &COUNTS[1..], drops),
        ]
    }

    pub fn print(&self) {
        self.tables().iter().for_each(Table::print);
    }

    /// What is owed of a run and did not occur.
    pub fn missing(&self) -> Vec<String> {
        self.tables().iter().flat_map(Table::missing).collect()
    }
}
