//! What a run has met of the switch event's unit (document 02, A7): each unit's switch is moved alone, and number 18 is
//! the last check, in every state.

use crate::event::Event;
use crate::pair::Played;
use crate::state::State;
use crate::switch_event::STATES;
use crate::table::Table;
use crate::units::{column, names, row, COUNTS, UNITS};
use ordinary::unit::Unit;

const MOVES: [&str; 4] = ["closes", "opens", "closes, another closed", "opens, another closed"];
/// The position and the unit that the event names; a position over 1 is number 10.
const BEYOND: [&str; 6] = [
    "0, first beyond",
    "0, another",
    "1, first beyond",
    "1, another",
    "over 1, first beyond",
    "over 1, another",
];

#[derive(Default)]
pub struct UnitSwitches {
    moves: [[u64; MOVES.len()]; UNITS.len()],
    /// Number 18, by state and number of units.
    refused: [[u64; COUNTS.len()]; STATES.len()],
    beyond: [[u64; BEYOND.len()]; COUNTS.len()],
}

impl UnitSwitches {
    /// Notes an event that was played on a device that was in the state of `before`.
    pub fn note(&mut self, before: &State, event: &Event, played: &Played) {
        let Event::Switch { position, unit } = *event else { return };
        let (count, number) = (before.units.len(), played.answer.number);
        match (row(count, unit), column(count)) {
            (Some(row), _) if number == 1 => self.note_moved(before, position, unit, row),
            (None, Some(column)) => {
                if number == 18 {
                    for ((_, holds), counts) in STATES.iter().zip(&mut self.refused) {
                        counts[column] += u64::from(holds(before));
                    }
                }
                let named = 2 * usize::from(position.min(2)) + usize::from(usize::from(unit) > count);
                self.beyond[column][named] += 1;
            }
            _ => {}
        }
    }

    fn note_moved(&mut self, before: &State, position: u8, unit: u8, row: usize) {
        let other = |(at, other): (u8, &Unit)| at != unit && other.closed();
        let beside = (0..).zip(&before.units).any(other);
        let found = before.units[usize::from(unit)].write_switch;
        if found != position {
            self.moves[row][usize::from(position == 0) + 2 * usize::from(beside)] += 1;
        }
    }

    fn tables(&self) -> [Table<'_>; 3] {
        let names = names();
        // Where there is one unit, none is beside it.
        let moves = names.iter().zip(&self.moves).map(|(name, counts)| match name.ends_with("of 1") {
            true => (name, &counts[..2]),
            false => (name, &counts[..]),
        });
        let refused = STATES.iter().zip(&self.refused).map(|((name, _), counts)| (name, &counts[..]));
        let beyond = COUNTS.iter().zip(self.beyond.iter().map(|counts| &counts[..]));
        [
            Table::new("switches moved, by unit", MOVES, moves),
            Table::new("switch events answered 18, by state", COUNTS, refused),
            Table::new("switch events for a unit beyond the table, by position and unit", BEYOND, beyond),
        ]
    }

    pub fn print(&self) {
        self.tables().iter().for_each(Table::print);
    }

    /// What is owed of a run and did not occur.
    pub fn missing(&self) -> Vec<String> {
        self.tables().iter().flat_map(Table::missing).collect()
    }
}
