//! What a run has met of statuses under account whose data was shown (document 02, A11 and A13): the bytes shown count as
//! those of asks.

use crate::event::Event;
use crate::pair::Played;
use crate::state::State;
use crate::table::Table;
use crate::units::{column, COUNTS};
use ordinary::record::stage;

const MET: [&str; 4] = ["Read, all shown", "Read, shown and copied", "reply shown", "short, shown"];

#[derive(Default)]
pub struct LedgerShows {
    /// The packets of data since the last wrapper, and whether they were a Read's.
    shown: u64,
    copied: u64,
    reads: bool,
    /// By number of units.
    counts: [[u64; MET.len()]; COUNTS.len()],
}

impl LedgerShows {
    /// Notes an event that was played on a device that was in the state of `before`.
    pub fn note(&mut self, before: &State, event: &Event, played: &Played) {
        match (event, played.answer.number) {
            (Event::BulkOut { .. }, 1) if before.stage == stage::READY => (self.shown, self.copied) = (0, 0),
            (Event::BulkIn { .. }, 0) if before.status_due() => self.note_status(before),
            (Event::BulkIn { .. }, 0) => self.copied += 1,
            (Event::Show { .. }, 0) => {
                self.shown += 1;
                self.reads = before.stage == stage::DATA_IN;
            }
            _ => {}
        }
    }

    fn note_status(&mut self, before: &State) {
        let Some(units) = column(before.units.len()) else { return };
        let (shown, copied) = (self.shown > 0, self.copied > 0);
        let met = [
            self.reads && shown && !copied,
            self.reads && shown && copied,
            !self.reads && shown,
            shown && before.residue > 0,
        ];
        met.iter().zip(&mut self.counts[units]).for_each(|(met, count)| *count += u64::from(*met));
    }

    fn table(&self) -> Table<'_> {
        let rows = COUNTS.iter().zip(self.counts.iter().map(|counts| &counts[..]));
        Table::new("statuses under account, by data shown", MET, rows)
    }

    pub fn print(&self) {
        self.table().print();
    }

    /// What is owed of a run and did not occur.
    pub fn missing(&self) -> Vec<String> {
        self.table().missing()
    }
}
