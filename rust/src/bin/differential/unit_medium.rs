//! What a run has met of media that are not of the sum of the units' sizes (document 02, A7): a device that sums in another
//! way takes one of them.

use crate::event::Event;
use crate::pair::Played;
use crate::state::State;
use crate::table::Table;
use crate::units::{column, COUNTS};
use ordinary::device::BLOCK;

/// A name, and whether a medium of so many blocks is meant, lent with a table.
type Length = (&'static str, fn(u64, &State) -> bool);

const LENGTHS: [Length; 5] = [
    ("a block less", |blocks, state| blocks + 1 == state.blocks()),
    ("a block more", |blocks, state| blocks == state.blocks() + 1),
    ("without the last unit", |blocks, state| blocks == state.blocks() - last(state)),
    ("the first unit alone", |blocks, state| blocks == u64::from(state.units[0].blocks)),
    ("the last unit alone", |blocks, state| blocks == last(state)),
];
/// Of one unit that is the whole medium.
const FOR_ONE: usize = 3;
const KINDS: [&str; 4] = ["make", "bulk-out", "bulk-in", "show"];

#[derive(Default)]
pub struct UnitMedia {
    /// Refused with 11, by kind, number of units and length.
    counts: [[[u64; LENGTHS.len()]; COUNTS.len()]; KINDS.len()],
}

fn last(state: &State) -> u64 {
    state.units.last().map_or(0, |unit| unit.blocks.into())
}

impl UnitMedia {
    /// Notes an event that was played on a device that was in the state of `before`.
    pub fn note(&mut self, before: &State, event: &Event, played: &Played) {
        let kind = match event {
            Event::Make { .. } => 0,
            Event::BulkOut { .. } => 1,
            Event::BulkIn { .. } => 2,
            Event::Show { .. } => 3,
            Event::BusReset | Event::Control { .. } | Event::Reply { .. } | Event::Switch { .. } => return,
        };
        let whole = played.medium.is_multiple_of(BLOCK) && played.answer.number == 11;
        let (true, Some(column)) = (whole, column(before.units.len())) else { return };
        for ((_, holds), count) in LENGTHS.iter().zip(&mut self.counts[kind][column]) {
            *count += u64::from(holds((played.medium / BLOCK) as u64, before));
        }
    }

    fn table(&self) -> Table<'_> {
        let kinds = KINDS.iter().zip(&self.counts);
        let rows = kinds.flat_map(|(kind, counts)| {
            COUNTS.iter().zip(counts).enumerate().map(move |(at, (count, lengths))| {
                let owed = if at == 0 { FOR_ONE } else { LENGTHS.len() };
                (format!("{kind}, {count}"), &lengths[..owed])
            })
        });
        Table::new("media refused with 11", LENGTHS.map(|(name, _)| name), rows)
    }

    pub fn print(&self) {
        self.table().print();
    }

    /// What is owed of a run and did not occur.
    pub fn missing(&self) -> Vec<String> {
        self.table().missing()
    }
}
