//! What a run has met of resets with a write switch closed (document 02, A4): none moves it but a making, from no
//! state.

use crate::event::Event;
use crate::pair::Played;
use crate::sense_drop::CAUSES;
use crate::state::State;
use crate::table::Table;
use ordinary::record::{stage, Record};

/// A name, and whether the record before it is meant.
type Before = (&'static str, fn(&Record) -> bool);

/// The first that holds counts. Unconfigured, a Mass Storage Reset stalls.
const STATES: [Before; 6] = [
    ("unconfigured", |before| !before.configured()),
    ("locked", Record::locked),
    ("wrapper due", |before| before.stage == stage::READY),
    ("Write's data due", |before| before.stage == stage::DATA_OUT),
    ("status due", Record::status_due),
    ("data-in due", |_| true),
];

#[derive(Default)]
pub struct SwitchDrops {
    /// By cause and state.
    counts: [[u64; STATES.len()]; CAUSES.len()],
}

impl SwitchDrops {
    /// Notes an event that was played on a device that was in the state of `before`.
    pub fn note(&mut self, before: &State, event: &Event, played: &Played) {
        if !before.any_closed() || played.answer.number >= 10 {
            return;
        }
        let cause = CAUSES.iter().position(|(_, is)| is(event));
        let state = STATES.iter().position(|(_, holds)| holds(before));
        if let (Some(cause), Some(state)) = (cause, state) {
            self.counts[cause][state] += 1;
        }
    }

    fn table(&self) -> Table<'_> {
        let rows = CAUSES.iter().zip(&self.counts).map(|((name, _), counts)| (name, &counts[..]));
        Table::new("resets with a switch closed, by state", STATES.map(|(name, _)| name), rows)
    }

    pub fn print(&self) {
        self.table().print();
    }

    /// What is owed of a run and did not occur.
    pub fn missing(&self) -> Vec<String> {
        self.table().missing()
    }
}
