//! What a run has met of replies that tell of the write switch (document 02, A4): Mode Sense shows the position that its
//! wrapper found, and Request Sense sends 07/27/00 whatever the switch is by then.

use crate::coverage::{accept, unit_of, verdict, PASSED};
use crate::event::Event;
use crate::pair::Played;
use crate::state::State;
use crate::table::Table;
use ordinary::record::stage;
use ordinary::scsi::{code, Sense};
use ordinary::unit::Unit;
use ordinary::wrapper::Cbw;

/// The position that the wrapper found, and the one at the ask.
const MODES: [&str; 4] = [
    "found open, sent open",
    "found open, sent closed",
    "found closed, sent open",
    "found closed, sent closed",
];
const SHOWN: [&str; 2] = ["cut before byte 2", "byte 2 shown"];
/// The position when Request Sense came.
const SENSES: [&str; 2] = ["opened since", "still closed"];
const CUTS: [&str; 3] = ["none", "cut", "whole"];

#[derive(Default)]
pub struct SwitchReplies {
    /// By positions and what was shown.
    modes: [[u64; SHOWN.len()]; MODES.len()],
    /// By position and how the allocation length cuts.
    senses: [[u64; CUTS.len()]; SENSES.len()],
}

impl SwitchReplies {
    /// Notes an event that was played on a device that was in the state of `before`.
    pub fn note(&mut self, before: &State, event: &Event, played: &Played) {
        match (event, played.answer.number, before.stage) {
            (event, 0, stage::MODE_SENSE) if event.asks() => {
                let closed = before.own_unit().is_some_and(Unit::closed);
                let positions = 2 * usize::from(before.value == 1) + usize::from(closed);
                self.modes[positions][usize::from(played.answer.count > 2)] += 1;
            }
            (Event::BulkOut { packet, .. }, 1, stage::READY) => {
                let cbw = accept(before, packet);
                cbw.iter().for_each(|cbw| self.note_wrapper(before, cbw));
            }
            _ => {}
        }
    }

    fn note_wrapper(&mut self, before: &State, cbw: &Cbw) {
        let unit = unit_of(before, cbw);
        let asked = cbw.block[0] == code::REQUEST_SENSE && verdict(before, cbw).1 == PASSED;
        if asked && unit.sense() == Sense::WRITE_PROTECTED {
            let cut = match cbw.block[4] {
                0 => 0,
                1..18 => 1,
                _ => 2,
            };
            self.senses[usize::from(unit.closed())][cut] += 1;
        }
    }

    fn tables(&self) -> [Table<'_>; 2] {
        let modes = MODES.iter().zip(self.modes.iter().map(|counts| &counts[..]));
        let senses = SENSES.iter().zip(self.senses.iter().map(|counts| &counts[..]));
        [
            Table::new("Mode Sense, by the switch", SHOWN, modes),
            Table::new("Request Sense that found 07/27/00, by the switch", CUTS, senses),
        ]
    }

    pub fn print(&self) {
        self.tables().iter().for_each(Table::print);
    }

    /// What is owed of a run and did not occur.
    pub fn missing(&self) -> Vec<String> {
        self.tables().iter().flat_map(Table::missing).collect()
    }
}
