//! What a run has met of statuses under account (document 02, A13), by what their residue is made of.

use crate::coverage::{accept, decide, verdict, PHASE_ERROR};
use crate::event::Event;
use crate::pair::Played;
use crate::state::State;
use crate::table::Table;
use crate::units::{column, COUNTS};
use ordinary::record::stage;
use ordinary::scsi::Data;
use ordinary::wrapper::Cbw;

const MET: [&str; 9] = [
    "complete",
    "short read",
    "short reply",
    "reply cut",
    "short write",
    "cut with blocks",
    "cut without",
    "failed, residue",
    "phase error",
];

/// The command of the next status.
#[derive(Clone, Copy)]
struct Begun {
    data: Data,
    /// Found at the wrapper.
    phase_error: bool,
}

#[derive(Default)]
pub struct LedgerStatuses {
    begun: Option<Begun>,
    /// By number of units.
    counts: [[u64; MET.len()]; COUNTS.len()],
}

impl LedgerStatuses {
    /// Notes an event that was played on a device that was in the state of `before`.
    pub fn note(&mut self, before: &State, event: &Event, played: &Played) {
        match (event, played.answer.number) {
            (Event::BulkOut { packet, .. }, 1) if before.stage == stage::READY => {
                self.begun = accept(before, packet).map(|cbw| begun(before, &cbw));
            }
            (Event::BulkIn { .. }, 0) if before.status_due() => {
                let (Some(begun), Some(units)) = (self.begun, column(before.units.len())) else { return };
                for (met, count) in met(before, begun).iter().zip(&mut self.counts[units]) {
                    *count += u64::from(*met);
                }
            }
            _ => {}
        }
    }

    fn table(&self) -> Table<'_> {
        let rows = COUNTS.iter().zip(self.counts.iter().map(|counts| &counts[..]));
        Table::new("statuses under account", MET, rows)
    }

    pub fn print(&self) {
        self.table().print();
    }

    /// What is owed of a run and did not occur.
    pub fn missing(&self) -> Vec<String> {
        self.table().missing()
    }
}

fn begun(before: &State, cbw: &Cbw) -> Begun {
    let phase_error = verdict(before, cbw).1 == PHASE_ERROR;
    Begun { data: decide(before, cbw).unwrap_or(Data::None), phase_error }
}

/// Which of `MET` a status is that is due.
fn met(before: &State, Begun { data, phase_error }: Begun) -> [bool; MET.len()] {
    let (moved, short) = (before.residue < before.announced, before.residue > 0);
    let passed = before.stage == stage::PASSED;
    let cut = before.stage == stage::PHASE_ERROR && !phase_error;
    [
        passed && moved && !short,
        passed && short && matches!(data, Data::Read { .. }),
        passed && short && matches!(data, Data::Reply { .. }),
        passed && matches!(data, Data::Reply { reply, length } if length < reply.size()),
        passed && short && matches!(data, Data::Write { .. }),
        cut && moved,
        cut && !moved,
        before.stage == stage::FAILED && short,
        phase_error && short,
    ]
}
