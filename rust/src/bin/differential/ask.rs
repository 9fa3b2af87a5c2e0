//! Asks for bulk-in data: by the copying call, or by the showing one with the record's reply or another (document 02,
//! A11); and the call that gives the record's reply.

use crate::event::{Buffer, Event, Lent};
use crate::lent_reply::{runs, LentReply};
use crate::random::Random;
use crate::state::State;
use ordinary::device::PACKET;
use ordinary::record::stage;

/// Some commands are mostly shown and some mostly copied: their tag says which. Where a status is due the showing call
/// does not go on.
pub fn ask(random: &mut Random, state: &State) -> Event {
    let shown = match state.tag % 4 {
        _ if state.status_due() => random.one_in(10),
        _ if state.stage == stage::READY => random.one_in(2),
        0 => random.one_in(16),
        1 => !random.one_in(16),
        _ => random.one_in(2),
    };
    if shown {
        show(LentReply::some(random))
    } else {
        Event::BulkIn { medium: Lent::Own, buffer: buffer(random) }
    }
}

pub fn show(reply: LentReply) -> Event {
    Event::Show { medium: Lent::Own, reply }
}

/// Whether the record's reply is asked for now: mostly where one runs.
pub fn wants_reply(random: &mut Random, state: &State) -> bool {
    random.one_in(if runs(state) { 6 } else { 50 })
}

pub fn reply(random: &mut Random) -> Event {
    Event::Reply { buffer: buffer(random) }
}

pub fn buffer(random: &mut Random) -> Buffer {
    let length = if random.one_in(4) { PACKET + random.below(70) as usize } else { PACKET };
    Buffer { length, seed: random.number() }
}
