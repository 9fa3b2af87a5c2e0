//! What a run has met of showing calls and calls for the reply on damaged and invented records (document 02, A11): the
//! record's reply has the bytes before the place too.

use crate::event::Event;
use crate::lent_reply::{own, runs};
use crate::page_record::fits;
use crate::pair::Played;
use crate::state::State;
use crate::table::Table;
use ordinary::device::PACKET;
use ordinary::record::stage;

/// A name, a number, and whether a call so answered on a record that fits is meant.
type Call = (&'static str, u32, fn(&State, &Played) -> bool);

const SHOWN: [Call; 8] = [
    ("a reply from its middle, 0", 0, |state, _| runs(state) && state.place > 0),
    ("a reply from its middle, its rest lent, 10", 10, |state, played| {
        let reply = own(state);
        let rest = reply.get(state.place as usize..);
        state.place > 0 && state.left > 0 && rest == Some(&played.reply[..])
    }),
    ("a reply with nothing left, 2", 2, |state, _| runs(state) && state.place > 0),
    ("a reply with nothing left, none lent, 10", 10, |state, played| {
        runs(state) && state.place > 0 && state.left == 0 && played.reply.is_empty()
    }),
    ("a reply of no bytes, 2", 2, |state, _| runs(state) && state.place == 0),
    ("a Read from within a packet, 0", 0, |state, _| reads(state) && state.place % PACKET as u32 != 0),
    ("a Read's part of a packet, 0", 0, |state, _| reads(state) && state.left < PACKET as u32),
    ("a Read with nothing left, 2", 2, |state, _| reads(state)),
];
const REPLIES: [Call; 3] = [
    ("from its middle", 0, |state, _| runs(state) && state.place > 0 && state.left > 0),
    ("nothing left", 0, |state, _| runs(state) && state.place > 0 && state.left == 0),
    ("no bytes", 0, |state, _| runs(state) && state.place == 0 && state.left == 0),
];

#[derive(Default)]
pub struct ShowRecords {
    shown: [u64; SHOWN.len()],
    replies: [u64; REPLIES.len()],
}

fn reads(state: &State) -> bool {
    state.stage == stage::DATA_IN
}

/// Whether a showing call is lent another reply than the record's: it is answered 10 whatever else the record is.
pub fn lent_other(before: &State, event: &Event, played: &Played) -> bool {
    matches!(event, Event::Show { .. }) && played.reply != own(before)
}

impl ShowRecords {
    /// Notes an event on a damaged or invented record.
    pub fn note(&mut self, before: &State, event: &Event, played: &Played) {
        let number = played.answer.number;
        let holds = |call: &Call| number == call.1 && call.2(before, played);
        match event {
            Event::Show { .. } if number != 10 || fits(before.record, &before.units) => {
                SHOWN.iter().zip(&mut self.shown).for_each(|(call, count)| *count += u64::from(holds(call)));
            }
            Event::Reply { .. } => {
                let replies = REPLIES.iter().zip(&mut self.replies);
                replies.for_each(|(call, count)| *count += u64::from(holds(call)));
            }
            _ => {}
        }
    }

    fn tables(&self) -> [Table<'_>; 2] {
        let shown = SHOWN.iter().zip(self.shown.chunks(1)).map(|((name, ..), count)| (name, count));
        let replies = REPLIES.iter().zip(self.replies.chunks(1)).map(|((name, ..), count)| (name, count));
        [
            Table::new("of these, showing calls", ["met"], shown),
            Table::new("of these, replies given", ["met"], replies),
        ]
    }

    pub fn print(&self) {
        self.tables().iter().for_each(Table::print);
    }

    /// What is owed of a run and did not occur.
    pub fn missing(&self) -> Vec<String> {
        self.tables().iter().flat_map(Table::missing).collect()
    }
}
