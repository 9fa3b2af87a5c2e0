//! What a run has met of showing calls and of calls for the reply (document 02, A11), by their answers.

use crate::event::Event;
use crate::lent_reply::{own, runs, whole};
use crate::pair::Played;
use crate::state::State;
use crate::table::Table;
use crate::units::{column, names, row, COUNTS, UNITS};
use ordinary::device::{BLOCK, PACKET};
use ordinary::record::stage;

/// A name, a number, and whether a showing call so answered is meant.
type Call = (&'static str, u32, fn(&State, &Played) -> bool);
/// As many bytes still due as one packet has at most.
const LAST: u32 = PACKET as u32;

const SHOWN: [Call; 15] = [
    ("0, first of a Read", 0, |state, _| reads(state) && state.residue == state.announced),
    ("0, later of a Read", 0, |state, _| {
        reads(state) && state.residue < state.announced && state.left > LAST
    }),
    ("0, last of a Read", 0, |state, _| reads(state) && state.left <= LAST && state.residue == state.left),
    ("0, last of a Read, halts", 0, |state, _| {
        reads(state) && state.left <= LAST && state.residue > state.left
    }),
    ("0, sense", 0, |state, _| state.stage == stage::REQUEST_SENSE),
    ("0, Inquiry", 0, |state, _| state.stage == stage::INQUIRY),
    ("0, Mode Sense", 0, |state, _| state.stage == stage::MODE_SENSE),
    ("0, Read Capacity", 0, |state, _| state.stage == stage::READ_CAPACITY),
    ("0, product page 00", 0, |state, _| pages(state, 0x00)),
    ("0, product page 80", 0, |state, _| pages(state, 0x80)),
    ("0, product page 83", 0, |state, _| pages(state, 0x83)),
    ("0, reply cut", 0, |state, _| runs(state) && is_cut(state)),
    ("0, reply whole", 0, |state, _| runs(state) && !is_cut(state)),
    ("0, reply, none left over", 0, |state, _| runs(state) && state.residue == state.left),
    ("0, reply, halts", 0, |state, _| runs(state) && state.residue > state.left),
];
const NOT_SHOWN: [Call; 14] = [
    ("2, wrapper due", 2, |state, _| state.stage == stage::READY),
    ("2, Write's data due", 2, |state, _| state.stage == stage::DATA_OUT),
    ("2, status due, passed", 2, |state, _| state.stage == stage::PASSED),
    ("2, status due, failed", 2, |state, _| state.stage == stage::FAILED),
    ("2, status due, phase error", 2, |state, _| state.stage == stage::PHASE_ERROR),
    ("3, locked", 3, |state, _| state.locked()),
    ("3, Read's data due", 3, |state, _| reads(state)),
    ("3, reply due", 3, |state, _| runs(state)),
    ("3, status due", 3, |state, _| state.status_due() && !state.locked()),
    ("4", 4, |_, _| true),
    ("11, Read's data due", 11, |state, _| reads(state)),
    ("11, reply due", 11, |state, _| runs(state)),
    ("11, status due", 11, |state, _| state.status_due()),
    ("11, unconfigured", 11, |state, _| !state.configured()),
];
/// Number 10 for the lent reply alone. A device that compares less takes one of them.
const OTHER_REPLY: [Call; 14] = [
    ("10, a byte other", 10, |state, played| differing(state, played) == Some(1)),
    ("10, the first byte other", 10, |state, played| byte_differs(state, played, 0)),
    ("10, the last byte other", 10, |state, played| {
        byte_differs(state, played, own(state).len().saturating_sub(1))
    }),
    ("10, a byte longer", 10, |state, played| {
        runs(state) && played.reply.len() == own(state).len() + 1 && played.reply.starts_with(&own(state))
    }),
    ("10, a byte shorter", 10, |state, played| {
        played.reply.len() + 1 == own(state).len() && own(state).starts_with(&played.reply)
    }),
    ("10, empty", 10, |state, played| runs(state) && played.reply.is_empty()),
    ("10, uncut", 10, |state, played| is_cut(state) && played.reply == whole(state)),
    ("10, bytes with a Read's data due", 10, |state, _| reads(state)),
    ("10, bytes with a Write's data due", 10, |state, _| state.stage == stage::DATA_OUT),
    ("10, bytes with a wrapper due", 10, |state, _| state.stage == stage::READY && state.configured()),
    ("10, bytes with a status due", 10, |state, _| state.status_due()),
    ("10 before 11", 10, |state, played| played.medium as u64 != state.blocks() * BLOCK as u64),
    ("10 before 4", 10, |state, _| !state.configured()),
    ("10 before 3", 10, |state, _| state.halt_in()),
];
/// Calls for the reply.
const REPLIES: [Call; 14] = [
    ("0, sense", 0, |state, _| state.stage == stage::REQUEST_SENSE),
    ("0, Inquiry", 0, |state, _| state.stage == stage::INQUIRY),
    ("0, Mode Sense", 0, |state, _| state.stage == stage::MODE_SENSE),
    ("0, Read Capacity", 0, |state, _| state.stage == stage::READ_CAPACITY),
    ("0, product page", 0, |state, _| state.stage == stage::PRODUCT_PAGE),
    ("0, cut", 0, |state, _| is_cut(state)),
    ("0, bulk-in halted", 0, |state, _| runs(state) && state.halt_in()),
    ("0, empty, wrapper due", 0, |state, _| state.stage == stage::READY && state.configured()),
    ("0, empty, unconfigured", 0, |state, _| !state.configured()),
    ("0, empty, Read's data due", 0, |state, _| reads(state)),
    ("0, empty, Write's data due", 0, |state, _| state.stage == stage::DATA_OUT),
    ("0, empty, status due", 0, |state, _| state.status_due()),
    ("12, reply due", 12, |state, _| runs(state)),
    ("12, none due", 12, |state, _| !runs(state)),
];
const SOURCES: [&str; 2] = ["of the medium", "of a reply"];

fn reads(state: &State) -> bool {
    state.stage == stage::DATA_IN
}

fn pages(state: &State, code: u32) -> bool {
    (state.stage, state.value) == (stage::PRODUCT_PAGE, code)
}

fn is_cut(state: &State) -> bool {
    own(state).len() < whole(state).len()
}

/// How many bytes of a lent reply of the right length are others.
fn differing(state: &State, played: &Played) -> Option<usize> {
    let own = own(state);
    let others = own.iter().zip(&played.reply).filter(|(own, lent)| own != lent).count();
    (own.len() == played.reply.len()).then_some(others)
}

/// Whether just this byte is another.
fn byte_differs(state: &State, played: &Played, at: usize) -> bool {
    differing(state, played) == Some(1) && own(state)[at] != played.reply[at]
}

type Counts<const ROWS: usize> = [[u64; COUNTS.len()]; ROWS];

#[derive(Default)]
pub struct ShowCalls {
    /// By number of units.
    shown: Counts<{ SHOWN.len() }>,
    not_shown: Counts<{ NOT_SHOWN.len() }>,
    other_reply: Counts<{ OTHER_REPLY.len() }>,
    replies: Counts<{ REPLIES.len() }>,
    /// By unit.
    units: [[u64; SOURCES.len()]; UNITS.len()],
}

impl ShowCalls {
    /// Notes an event that was played on a device that was in the state of `before`, lent its own table.
    pub fn note(&mut self, before: &State, event: &Event, played: &Played) {
        let Some(units) = column(before.units.len()) else { return };
        match event {
            Event::Show { .. } => {
                count(&SHOWN, &mut self.shown, units, before, played);
                count(&NOT_SHOWN, &mut self.not_shown, units, before, played);
                count(&OTHER_REPLY, &mut self.other_reply, units, before, played);
                if let (Some(row), 0) = (row(before.units.len(), before.unit), played.answer.number) {
                    self.units[row][usize::from(runs(before))] += 1;
                }
            }
            Event::Reply { .. } => count(&REPLIES, &mut self.replies, units, before, played),
            _ => {}
        }
    }

    fn tables(&self) -> [Table<'_>; 5] {
        let units = names().into_iter().zip(self.units.iter().map(|counts| &counts[..]));
        [
            table("showing calls with data", &SHOWN, &self.shown),
            table("showing calls without data", &NOT_SHOWN, &self.not_shown),
            table("showing calls lent another reply", &OTHER_REPLY, &self.other_reply),
            table("calls for the reply", &REPLIES, &self.replies),
            Table::new("packets shown, by unit", SOURCES, units),
        ]
    }

    pub fn print(&self) {
        self.tables().iter().for_each(Table::print);
    }

    /// What is owed of a run and did not occur.
    pub fn missing(&self) -> Vec<String> {
        self.tables().iter().flat_map(Table::missing).collect()
    }
}

fn count<const ROWS: usize>(
    calls: &[Call; ROWS],
    counts: &mut Counts<ROWS>,
    units: usize,
    before: &State,
    played: &Played,
) {
    for ((_, number, holds), counts) in calls.iter().zip(counts) {
        counts[units] += u64::from(*number == played.answer.number && holds(before, played));
    }
}

fn table<'a, const ROWS: usize>(
    title: &'static str,
    calls: &[Call; ROWS],
    counts: &'a Counts<ROWS>,
) -> Table<'a> {
    let names = calls.iter().map(|(name, ..)| name);
    Table::new(title, COUNTS, names.zip(counts.iter().map(|counts| &counts[..])))
}
