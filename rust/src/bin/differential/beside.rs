//! The rules of the showing call and of the call for the reply (document 02, A11), looked at on each device alone: beside
//! a showing call a copy of the device is asked by the copying call.

use crate::compare::{compare_records, same_bytes};
use crate::event::Event;
use crate::lent_reply::own;
use crate::pair::Played;
use crate::state::State;
use ordinary::capi::{source, CShown};
use ordinary::device::{BLOCK, PACKET};
use ordinary::record::{stage, Record};
use ordinary::unit::Unit;

/// A call's number, the bytes that it gave, and the record that it left.
#[derive(PartialEq, Eq)]
pub struct Outcome {
    pub number: u32,
    pub bytes: Vec<u8>,
    pub record: Record,
}

/// Checks what these two calls left of both records, and that they did no more than read the table. What the copies did
/// goes with a showing call alone.
pub fn check(
    event: &Event,
    before: &State,
    played: &Played,
    copied: Option<[Outcome; 2]>,
    after: [Record; 2],
    units: &[Unit],
) -> Result<(), String> {
    let number = played.answer.number;
    if let Some(copied) = copied {
        for (copied, record) in copied.iter().zip(after) {
            let shown = Outcome { number, bytes: played.buffer.clone(), record };
            check_shown(before, &played.reply, &shown, copied)?;
        }
        check_place(before, &played.answer)?;
    } else if let Event::Reply { .. } = event {
        after.iter().try_for_each(|after| compare_records(before, after))?;
        owed(number != 0 || played.buffer == own(before), "not the record's reply")?;
    } else {
        return Ok(());
    }
    owed(same_bytes(&before.units, units), "the table was written to")
}

/// A showing call does as the copying call, unless the lent reply is not the record's or the copying call hands out a
/// status.
fn check_shown(before: &Record, lent: &[u8], shown: &Outcome, copied: &Outcome) -> Result<(), String> {
    let nothing = |number| Outcome { number, bytes: vec![], record: *before };
    let status = before.status_due() && copied.number == 0;
    if lent != own(before) {
        owed(*shown == nothing(10), "shown with another reply than the record's")
    } else if status {
        owed(*shown == nothing(2), "shown with a status due")
    } else {
        owed(shown == copied, "shown is not as copied")
    }
}

/// A packet stands in the medium or in the reply where the record's place is.
fn check_place(before: &State, shown: &CShown) -> Result<(), String> {
    let (place, first) = (before.place as usize, before.own_unit().map_or(0, |unit| unit.first));
    let count = PACKET.min(before.left as usize);
    let expected = match (shown.number, before.stage) {
        (0, stage::DATA_IN) => (source::MEDIUM, first as usize * BLOCK + place, count),
        (0, _) => (source::REPLY, place, count),
        _ => (source::NONE, 0, 0),
    };
    owed((shown.source, shown.start, shown.count) == expected, "shown at another place")
}

fn owed(holds: bool, fault: &str) -> Result<(), String> {
    holds.then_some(()).ok_or_else(|| fault.into())
}
