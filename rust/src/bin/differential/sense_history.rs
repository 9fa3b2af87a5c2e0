//! What a run has met between a unit's range failure and its next Request Sense (document 02, A8 and A7): the block that
//! the failure tells goes with its sense, and stays where the sense stays.

use crate::coverage::{accept, verdict, PASSED, PHASE_ERROR};
use crate::event::Event;
use crate::own::MOST;
use crate::pair::Played;
use crate::refused_block::fails_for_range;
use crate::requests::MASS_STORAGE_RESET;
use crate::state::State;
use crate::table::Table;
use ordinary::record::stage;
use ordinary::scsi::code;
use ordinary::wrapper::Cbw;

#[derive(Clone, Copy)]
enum Between {
    Nothing,
    Nak,
    Stall,
    Refusal,
    HaltSet,
    HaltCleared,
    Switch,
    BusReset,
    MassStorageReset,
    SetConfiguration,
    Lock,
    PhaseError,
    RangeFailure,
    OtherFailure,
    Passed,
    AnotherUnit,
}

const BETWEEN: [(Between, &str); 16] = [
    (Between::Nothing, "nothing"),
    (Between::Nak, "nak"),
    (Between::Stall, "stall"),
    (Between::Refusal, "refusal"),
    (Between::HaltSet, "halt set"),
    (Between::HaltCleared, "halt cleared"),
    (Between::Switch, "switch set"),
    (Between::BusReset, "bus reset"),
    (Between::MassStorageReset, "Mass Storage Reset"),
    (Between::SetConfiguration, "Set Configuration"),
    (Between::Lock, "wrapper not accepted"),
    (Between::PhaseError, "phase error at the wrapper"),
    (Between::RangeFailure, "another range failure"),
    (Between::OtherFailure, "another failure"),
    (Between::Passed, "command passed"),
    (Between::AnotherUnit, "another unit's command"),
];
/// How the allocation length cuts Request Sense.
const CUTS: [&str; 3] = ["none", "cut", "whole"];

#[derive(Default)]
pub struct SenseHistory {
    /// What came since a range failure of each unit; `None` where Request Sense came, or no failure yet.
    since: [Option<[bool; BETWEEN.len()]>; MOST as usize],
    /// By what came between and cut.
    counts: [[u64; CUTS.len()]; BETWEEN.len()],
}

impl SenseHistory {
    /// Notes an event that was played on a device that was in the state of `before`.
    pub fn note(&mut self, before: &State, event: &Event, played: &Played) {
        let between = match (event, played.answer.number) {
            (Event::Make { .. }, _) => {
                self.forget();
                return;
            }
            (Event::BulkOut { packet, .. }, 1) if before.stage == stage::READY => {
                accept(before, packet).iter().for_each(|cbw| self.note_wrapper(before, cbw));
                None
            }
            (Event::BulkOut { .. }, 3) if !before.halt_out() => Some(Between::Lock),
            (_, 2) => Some(Between::Nak),
            (_, 3) => Some(Between::Stall),
            (_, 10..) => Some(Between::Refusal),
            (Event::BusReset, _) => Some(Between::BusReset),
            (Event::Switch { .. }, _) => Some(Between::Switch),
            (Event::Control { setup, .. }, 1) => acked(setup),
            _ => None,
        };
        if let Some(between) = between {
            self.since.iter_mut().for_each(|since| came(since, between));
        }
    }

    /// What comes now is not part of the lists.
    pub fn forget(&mut self) {
        self.since = Default::default();
    }

    /// A range failure opens its unit's list, and Request Sense ends it. All else is told.
    fn note_wrapper(&mut self, before: &State, cbw: &Cbw) {
        let (_, verdict) = verdict(before, cbw);
        for (unit, since) in (0..).zip(&mut self.since) {
            if unit != cbw.unit {
                came(since, Between::AnotherUnit);
            }
        }
        let own = &mut self.since[usize::from(cbw.unit)];
        match (verdict, cbw.block[0]) {
            (PHASE_ERROR, _) => came(own, Between::PhaseError),
            _ if fails_for_range(before, cbw) => {
                came(own, Between::RangeFailure);
                own.get_or_insert([false; BETWEEN.len()]);
            }
            (PASSED, code::REQUEST_SENSE) => self.end(cbw.unit, cbw.block[4]),
            (PASSED, _) => came(own, Between::Passed),
            _ => came(own, Between::OtherFailure),
        }
    }

    fn end(&mut self, unit: u8, length: u8) {
        let Some(mut since) = self.since[usize::from(unit)].take() else { return };
        since[Between::Nothing as usize] = !since.contains(&true);
        let cut = match length {
            0 => 0,
            1..18 => 1,
            _ => 2,
        };
        for (met, counts) in since.iter().zip(&mut self.counts) {
            counts[cut] += u64::from(*met);
        }
    }

    fn table(&self) -> Table<'_> {
        let rows = BETWEEN.iter().map(|(between, name)| (name, &self.counts[*between as usize][..]));
        Table::new("between a range failure and Request Sense, by what it sends", CUTS, rows)
    }

    pub fn print(&self) {
        self.table().print();
    }

    /// What is owed of a run and did not occur.
    pub fn missing(&self) -> Vec<String> {
        self.table().missing()
    }
}

fn came(since: &mut Option<[bool; BETWEEN.len()]>, between: Between) {
    since.iter_mut().for_each(|since| since[between as usize] = true);
}

/// A control request that was done, by its first two bytes.
fn acked(setup: &[u8]) -> Option<Between> {
    match setup[..2] {
        [0x00, 0x09] => Some(Between::SetConfiguration),
        [0x02, 0x01] => Some(Between::HaltCleared),
        [0x02, 0x03] => Some(Between::HaltSet),
        _ if setup == MASS_STORAGE_RESET => Some(Between::MassStorageReset),
        _ => None,
    }
}
