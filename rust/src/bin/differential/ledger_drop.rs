//! What a run has met, under account, of commands cut by a drop (document 02, A13): none of them has a status, and none
//! counts for a later one.

use crate::event::Event;
use crate::pair::Played;
use crate::sense_drop::CAUSES;
use crate::state::State;
use crate::table::Table;
use crate::units::{column, COUNTS};
use ordinary::record::stage;

/// A name, and whether the state before the drop is meant.
type Before = (&'static str, fn(&State) -> bool);

const STATES: [Before; 5] = [
    ("reply due", |before| {
        matches!(before.stage, stage::REQUEST_SENSE..=stage::READ_CAPACITY | stage::PRODUCT_PAGE)
    }),
    ("Read under way", |before| before.stage == stage::DATA_IN && before.residue < before.announced),
    ("part block held", |before| before.stage == stage::DATA_OUT && before.value > 0),
    ("block arrived", |before| before.stage == stage::DATA_OUT && before.residue < before.announced),
    ("status due", |before| before.status_due()),
];
/// A making begins another account: it is no drop.
const FIRST_DROP: usize = 1;
const DROPS: usize = CAUSES.len() - FIRST_DROP;

#[derive(Default)]
pub struct LedgerDrops {
    /// By number of units, drop and state.
    counts: [[[u64; STATES.len()]; DROPS]; COUNTS.len()],
}

impl LedgerDrops {
    /// Notes an event that was played on a device that was in the state of `before`.
    pub fn note(&mut self, before: &State, event: &Event, played: &Played) {
        let drop = CAUSES[FIRST_DROP..].iter().position(|(_, is)| played.answer.number == 1 && is(event));
        let (Some(units), Some(drop)) = (column(before.units.len()), drop) else { return };
        for ((_, holds), count) in STATES.iter().zip(&mut self.counts[units][drop]) {
            *count += u64::from(holds(before));
        }
    }

    fn table(&self) -> Table<'_> {
        let rows = COUNTS.iter().zip(&self.counts).flat_map(|(units, drops)| {
            let names = CAUSES[FIRST_DROP..].iter().map(move |(name, _)| format!("{units}, {name}"));
            names.zip(drops.iter().map(|counts| &counts[..]))
        });
        Table::new("commands under account that a drop cut", STATES.map(|(name, _)| name), rows)
    }

    pub fn print(&self) {
        self.table().print();
    }

    /// What is owed of a run and did not occur.
    pub fn missing(&self) -> Vec<String> {
        self.table().missing()
    }
}
