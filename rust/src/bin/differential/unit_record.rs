//! What a run has met of the unit in damaged and invented records (document 02, A7): it is in the table in every stage, and
//! a running transfer's blocks lie in it.

use crate::event::{Event, KINDS};
use crate::page_record::fits;
use crate::pair::Played;
use crate::state::State;
use crate::table::Table;
use crate::units::{column, names, row, COUNTS, UNITS};
use ordinary::device::BLOCK;
use ordinary::record::{stage, Record};

const BEYOND: [&str; 3] = ["the first beyond, 10", "another, 10", "255, 10"];
/// The bytes or blocks still due end with the unit, or one past it.
const ENDS: [&str; 4] =
    ["blocks to its end, fit", "a block past it, 10", "bytes to its end, fit", "a byte past it, 10"];
const STAGE_COUNT: usize = stage::COUNT;

#[derive(Default)]
pub struct UnitRecords {
    /// Records that fit, by stage and unit.
    fit: [[u64; UNITS.len()]; STAGE_COUNT],
    /// The unit is beyond the table, by stage and event. A making finds no record.
    stages: [[u64; KINDS.len()]; STAGE_COUNT],
    beyond: [[u64; BEYOND.len()]; COUNTS.len()],
    ends: [[u64; ENDS.len()]; UNITS.len()],
}

impl UnitRecords {
    /// Notes an event on a damaged or invented record. One that does not fit counts where it has one fault only.
    pub fn note(&mut self, before: &State, event: &Event, played: &Played) {
        let (stage, count) = (usize::from(before.stage), before.units.len());
        let refused = played.answer.number == 10;
        if stage >= STAGE_COUNT {
            return;
        }
        if let Some(row) = row(count, before.unit) {
            self.fit[stage][row] += u64::from(!refused);
            self.note_end(before, row, refused);
        } else if let (true, Some(column)) = (refused, column(count)) {
            if (0..count as u8).any(|unit| fits(Record { unit, ..before.record }, &before.units)) {
                self.stages[stage][event.kind()] += 1;
                let beyond = [usize::from(before.unit) == count, before.unit < 0xFF, true];
                let beyond = beyond.iter().position(|holds| *holds).unwrap_or(0);
                self.beyond[column][beyond] += 1;
            }
        }
    }

    /// Notes where a running transfer ends.
    fn note_end(&mut self, before: &State, row: usize, refused: bool) {
        let Some(unit) = before.own_unit() else { return };
        let (column, end) = match before.stage {
            stage::DATA_OUT => (0, u64::from(unit.blocks)),
            stage::DATA_IN => (2, u64::from(unit.blocks) * BLOCK as u64),
            _ => return,
        };
        let due = u64::from(before.place) + u64::from(before.left);
        let shorter = Record { left: before.left.saturating_sub(1), ..before.record };
        if due == end && before.left > 0 && !refused {
            self.ends[row][column] += 1;
        } else if due == end + 1 && before.left > 0 && refused && fits(shorter, &before.units) {
            self.ends[row][column + 1] += 1;
        }
    }

    fn tables(&self) -> [Table<'_>; 4] {
        let names = names();
        let stages = self.stages.iter().enumerate();
        let stages = stages.map(|(stage, counts)| (format!("stage {stage}, 10"), &counts[1..]));
        let fit = self.fit.iter().enumerate();
        let fit = fit.map(|(stage, counts)| (format!("stage {stage}, fits"), &counts[..]));
        let beyond = COUNTS.iter().zip(self.beyond.iter().map(|counts| &counts[..]));
        let ends = names.iter().zip(self.ends.iter().map(|counts| &counts[..]));
        [
            Table::new("of these, records that fit, by unit", &names, fit),
            Table::new("of these, records with a unit beyond the table", &KINDS[1..], stages),
            Table::new("of these, by the unit beyond", BEYOND, beyond),
            Table::new("of these, transfers by the unit's end", ENDS, ends),
        ]
    }

    pub fn print(&self) {
        self.tables().iter().for_each(Table::print);
    }

    /// What is owed of a run and did not occur.
    pub fn missing(&self) -> Vec<String> {
        self.tables().iter().flat_map(Table::missing).collect()
    }
}
