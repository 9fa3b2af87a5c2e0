//! What a run has met of a range failure's sense being dropped (document 02, A8): by each kind of drop, from each state
//! that has the sense. A device that keeps the block goes wrong there.

use crate::event::Event;
use crate::pair::Played;
use crate::requests::{MASS_STORAGE_RESET, SET_CONFIGURATION, SET_NO_CONFIGURATION};
use crate::state::State;
use crate::table::Table;
use ordinary::record::{stage, Record};
use ordinary::scsi::Sense;

/// A name, and whether an event is meant.
pub type Cause = (&'static str, fn(&Event) -> bool);
/// A name, and whether the record before it is meant.
type Before = (&'static str, fn(&Record) -> bool);

pub const CAUSES: [Cause; 5] = [
    ("making", |event| matches!(event, Event::Make { .. })),
    ("bus reset", |event| matches!(event, Event::BusReset)),
    ("Mass Storage Reset", |event| requests(event, &MASS_STORAGE_RESET)),
    ("Set Configuration 0", |event| requests(event, &SET_NO_CONFIGURATION)),
    ("Set Configuration 1", |event| requests(event, &SET_CONFIGURATION)),
];
/// The first that holds counts.
const STATES: [Before; 3] = [
    ("locked", Record::locked),
    ("wrapper due", |before| before.stage == stage::READY),
    ("status due", Record::status_due),
];

#[derive(Default)]
pub struct SenseDrops {
    /// By cause and state.
    counts: [[u64; STATES.len()]; CAUSES.len()],
}

fn requests(event: &Event, request: &[u8; 8]) -> bool {
    matches!(event, Event::Control { setup, .. } if setup == request)
}

impl SenseDrops {
    /// Notes an event that was played on a device that was in the state of `before`.
    pub fn note(&mut self, before: &State, event: &Event, played: &Played) {
        if !before.any_sense(Sense::is_out_of_range) || played.answer.number != 1 {
            return;
        }
        let cause = CAUSES.iter().position(|(_, is)| is(event));
        let state = STATES.iter().position(|(_, holds)| holds(before));
        if let (Some(cause), Some(state)) = (cause, state) {
            self.counts[cause][state] += 1;
        }
    }

    fn table(&self) -> Table<'_> {
        let rows = CAUSES.iter().zip(&self.counts).map(|((name, _), counts)| (name, &counts[..]));
        Table::new("drops of a range failure's sense, by state", STATES.map(|(name, _)| name), rows)
    }

    pub fn print(&self) {
        self.table().print();
    }

    /// What is owed of a run and did not occur.
    pub fn missing(&self) -> Vec<String> {
        self.table().missing()
    }
}
