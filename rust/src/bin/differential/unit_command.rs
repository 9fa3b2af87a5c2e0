//! What a run has met of commands by their unit (document 02, A7): a device that takes one unit for another goes wrong
//! there.

use crate::coverage::{accept, verdict, COMMANDS, FAILED, PASSED, PHASE_ERROR};
use crate::event::Event;
use crate::pair::Played;
use crate::requests::GET_MAX_LUN;
use crate::state::State;
use crate::table::Table;
use crate::units::{column, names, row, COUNTS, UNITS};
use ordinary::record::stage;
use ordinary::wrapper::{Cbw, CBW_SIZE};

/// By what a wrapper that is good but for its unit names.
const BEYOND: [&str; 3] = ["the first beyond", "another, to 15", "16 and more"];
const MAX_LUN: [&str; 2] = ["answered", "stalled"];
const OTHERS: [&str; 2] = ["failed", "phase error"];

#[derive(Default)]
pub struct UnitCommands {
    /// Passed, by unit and command of the table.
    passed: [[u64; COMMANDS.len()]; UNITS.len()],
    /// By unit.
    others: [[u64; OTHERS.len()]; UNITS.len()],
    /// Locks, by number of units.
    beyond: [[u64; BEYOND.len()]; COUNTS.len()],
    max_lun: [[u64; MAX_LUN.len()]; COUNTS.len()],
}

impl UnitCommands {
    /// Notes an event that was played on a device that was in the state of `before`.
    pub fn note(&mut self, before: &State, event: &Event, played: &Played) {
        let Some(count) = column(before.units.len()) else { return };
        match (event, played.answer.number) {
            (Event::BulkOut { packet, .. }, 1) if before.stage == stage::READY => {
                accept(before, packet).iter().for_each(|cbw| self.note_wrapper(before, cbw));
            }
            (Event::BulkOut { packet, .. }, 3) if !before.halt_out() => {
                if let Some(beyond) = beyond(packet, before.units.len()) {
                    self.beyond[count][beyond] += 1;
                }
            }
            (Event::Control { setup, .. }, 0) if *setup == GET_MAX_LUN => self.max_lun[count][0] += 1,
            (Event::Control { setup, .. }, 3) if *setup == GET_MAX_LUN => self.max_lun[count][1] += 1,
            _ => {}
        }
    }

    fn note_wrapper(&mut self, before: &State, cbw: &Cbw) {
        let Some(row) = row(before.units.len(), cbw.unit) else { return };
        let known = COMMANDS.iter().position(|(code, _)| *code == cbw.block[0]);
        match (verdict(before, cbw).1, known) {
            (PASSED, Some(index)) => self.passed[row][index] += 1,
            (FAILED, _) => self.others[row][0] += 1,
            (PHASE_ERROR, _) => self.others[row][1] += 1,
            _ => {}
        }
    }

    fn tables(&self) -> [Table<'_>; 4] {
        let names = names();
        let passed = names.iter().zip(self.passed.iter().map(|counts| &counts[..]));
        let others = names.iter().zip(self.others.iter().map(|counts| &counts[..]));
        let beyond = COUNTS.iter().zip(self.beyond.iter().map(|counts| &counts[..]));
        let max_lun = COUNTS.iter().zip(self.max_lun.iter().map(|counts| &counts[..]));
        let codes = COMMANDS.map(|(code, _)| format!("{code:02X}"));
        [
            Table::new("commands that passed, by unit", codes, passed),
            Table::new("other verdicts at the wrapper, by unit", OTHERS, others),
            Table::new("locks by a unit beyond the table, by the unit named", BEYOND, beyond),
            Table::new("Get Max LUN", MAX_LUN, max_lun),
        ]
    }

    pub fn print(&self) {
        self.tables().iter().for_each(Table::print);
    }

    /// What is owed of a run and did not occur.
    pub fn missing(&self) -> Vec<String> {
        self.tables().iter().flat_map(Table::missing).collect()
    }
}

/// The place in `BEYOND` of a wrapper that would be accepted but for its unit.
fn beyond(packet: &[u8], count: usize) -> Option<usize> {
    let mut mended = packet.to_vec();
    let named = usize::from(std::mem::take(mended.get_mut(13)?));
    if packet.len() != CBW_SIZE || named < count || Cbw::accept(&mended, 1).is_none() {
        return None;
    }
    Some(match named {
        _ if named == count => 0,
        ..16 => 1,
        _ => 2,
    })
}
