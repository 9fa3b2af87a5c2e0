//! What a run has met of the switch event (document 02, A4): it is taken in every state, in the middle of a command too,
//! and changes nothing but the position.

use crate::event::Event;
use crate::pair::Played;
use crate::state::State;
use crate::switch::{CLOSED, OPEN};
use crate::table::Table;
use ordinary::record::stage;

/// A name, and whether the state before the event is meant.
type Before = (&'static str, fn(&State) -> bool);

pub const STATES: [Before; 11] = [
    ("unconfigured", |before| !before.configured()),
    ("locked", |before| before.locked()),
    ("bulk-in halted", |before| before.halt_in() && !before.locked()),
    ("bulk-out halted", |before| before.halt_out() && !before.locked()),
    ("a sense held", |before| before.senses() > 0),
    ("wrapper due", |before| before.stage == stage::READY && before.configured() && !before.locked()),
    ("Write's data due", |before| before.stage == stage::DATA_OUT),
    ("Read's data due", |before| before.stage == stage::DATA_IN),
    ("Mode Sense's reply due", |before| before.stage == stage::MODE_SENSE),
    ("another reply due", |before| {
        let replies = [stage::REQUEST_SENSE, stage::INQUIRY, stage::READ_CAPACITY, stage::PRODUCT_PAGE];
        replies.contains(&before.stage)
    }),
    ("status due", |before| before.status_due()),
];
const CHANGES: [&str; 6] = ["open, kept", "closes", "opens", "closed, kept", "open, 10", "closed, 10"];

#[derive(Default)]
pub struct SwitchEvents {
    /// By state and change.
    counts: [[u64; CHANGES.len()]; STATES.len()],
}

impl SwitchEvents {
    /// Notes an event that was played on a device that was in the state of `before`.
    pub fn note(&mut self, before: &State, event: &Event, played: &Played) {
        let Event::Switch { position, unit } = *event else { return };
        let Some(unit) = before.units.get(usize::from(unit)) else { return };
        let change = match (unit.write_switch, position, played.answer.number) {
            (OPEN, OPEN, 1) => 0,
            (OPEN, CLOSED, 1) => 1,
            (CLOSED, OPEN, 1) => 2,
            (CLOSED, CLOSED, 1) => 3,
            (OPEN, 2.., 10) => 4,
            (CLOSED, 2.., 10) => 5,
            _ => return,
        };
        for ((_, holds), counts) in STATES.iter().zip(&mut self.counts) {
            counts[change] += u64::from(holds(before));
        }
    }

    fn table(&self) -> Table<'_> {
        let rows = STATES.iter().zip(&self.counts).map(|((name, _), counts)| (name, &counts[..]));
        Table::new("switch events, by state", CHANGES, rows)
    }

    pub fn print(&self) {
        self.table().print();
    }

    /// What is owed of a run and did not occur.
    pub fn missing(&self) -> Vec<String> {
        self.table().missing()
    }
}
