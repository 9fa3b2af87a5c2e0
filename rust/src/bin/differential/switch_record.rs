//! What a run has met of write switches in damaged and invented records and tables (document 02, A4): number 10 follows its
//! position and the one that Mode Sense found, and the two need not be the same.

use crate::event::{Event, KINDS};
use crate::page_record::fits;
use crate::pair::Played;
use crate::state::State;
use crate::switch::{CLOSED, OPEN};
use crate::table::Table;
use ordinary::record::{stage, Record};
use ordinary::unit::Unit;

/// A name, and whether a state that fits is meant.
type Fit = (&'static str, fn(&State) -> bool);
/// A name, and whether the switch of a unit, or the value of a record in the stage of Mode Sense, is meant.
type Unfit = (&'static str, Field, fn(u32) -> bool);

#[derive(Clone, Copy, PartialEq, Eq)]
enum Field {
    Switch,
    Value,
}

const FIT: [Fit; 7] = [
    ("closed, unconfigured, fits", |state| state.any_closed() && !state.configured()),
    ("closed, locked, fits", |state| state.any_closed() && state.locked()),
    ("closed, stage 1, fits", |state| state.any_closed() && state.stage == stage::DATA_OUT),
    ("stage 5, value 0, open, fits", |state| modes(state, 0, OPEN)),
    ("stage 5, value 0, closed, fits", |state| modes(state, 0, CLOSED)),
    ("stage 5, value 1, open, fits", |state| modes(state, 1, OPEN)),
    ("stage 5, value 1, closed, fits", |state| modes(state, 1, CLOSED)),
];
/// A device that looks at the lowest bit or byte alone takes each for open or for closed.
const UNFIT: [Unfit; 10] = [
    ("switch 2, 10", Field::Switch, |switch| switch == 2),
    ("switch over 1, bit 0 clear, 10", Field::Switch, |switch| switch > 1 && switch % 2 == 0),
    ("switch over 1, bit 0 set, 10", Field::Switch, |switch| switch > 1 && switch % 2 == 1),
    ("switch FF, 10", Field::Switch, |switch| switch == 0xFF),
    ("stage 5, value 2, 10", Field::Value, |value| value == 2),
    ("stage 5, value over 1, bit 0 clear, 10", Field::Value, |value| value > 1 && value % 2 == 0),
    ("stage 5, value over 1, bit 0 set, 10", Field::Value, |value| value > 1 && value % 2 == 1),
    ("stage 5, value over 255, low byte 00, 10", Field::Value, |value| value > 0xFF && value & 0xFF == 0),
    ("stage 5, value over 255, low byte 01, 10", Field::Value, |value| value > 0xFF && value & 0xFF == 1),
    ("stage 5, value FFFFFFFF, 10", Field::Value, |value| value == u32::MAX),
];
/// Where the event's position is none.
const NO_POSITION: [&str; 2] = ["record fits", "record does not fit"];

#[derive(Default)]
pub struct SwitchRecords {
    /// By region and event. A making finds no record.
    fit: [[u64; KINDS.len()]; FIT.len()],
    unfit: [[u64; KINDS.len()]; UNFIT.len()],
    /// Mode Sense's third byte, by value and position.
    sent: [[u64; 2]; 2],
    no_position: [u64; NO_POSITION.len()],
}

/// Mode Sense is in hand with this value, and its unit's switch is at this position.
fn modes(state: &State, value: u32, position: u8) -> bool {
    let own = state.own_unit().map(|unit| unit.write_switch);
    (state.stage, state.value, own) == (stage::MODE_SENSE, value, Some(position))
}

/// The field that is meant, and whether the state with a good one in its place fits; `None` in another stage. Of
/// several units' switches the first that is none of the positions is meant.
fn mended(state: &State, field: Field) -> Option<(u32, bool)> {
    match field {
        Field::Switch => {
            let at = state.units.iter().position(|unit| unit.switch().is_none())?;
            let mut units = state.units.clone();
            let found = std::mem::replace(&mut units[at].write_switch, OPEN);
            Some((found.into(), fits(state.record, &units)))
        }
        Field::Value if state.stage != stage::MODE_SENSE => None,
        Field::Value => {
            let record = Record { value: 0, ..state.record };
            Some((state.value, fits(record, &state.units)))
        }
    }
}

impl SwitchRecords {
    /// Notes an event on a damaged or invented record. One that does not fit counts where it has one fault only.
    pub fn note(&mut self, before: &State, event: &Event, played: &Played) {
        let (kind, number) = (event.kind(), played.answer.number);
        if number == 10 {
            for ((_, field, holds), counts) in UNFIT.iter().zip(&mut self.unfit) {
                let meant = mended(before, *field).is_some_and(|(found, fits)| holds(found) && fits);
                counts[kind] += u64::from(meant);
            }
        } else {
            for ((_, holds), counts) in FIT.iter().zip(&mut self.fit) {
                counts[kind] += u64::from(holds(before));
            }
        }
        let third = before.place <= 2 && before.left > 2 - before.place;
        if let (true, 0, stage::MODE_SENSE, true) = (event.asks(), number, before.stage, third) {
            let closed = before.own_unit().is_some_and(Unit::closed);
            self.sent[before.value as usize][usize::from(closed)] += 1;
        }
    }

    /// Notes a switch event whose position is none: it was refused.
    pub fn note_no_position(&mut self, before: &State) {
        self.no_position[usize::from(!fits(before.record, &before.units))] += 1;
    }

    fn tables(&self) -> [Table<'_>; 3] {
        let fit = FIT.iter().zip(&self.fit).map(|((name, _), counts)| (name, &counts[1..]));
        let unfit = UNFIT.iter().zip(&self.unfit).map(|((name, ..), counts)| (name, &counts[1..]));
        let sent = ["value 0", "value 1"].into_iter().zip(self.sent.iter().map(|counts| &counts[..]));
        let refused = [("switch, 10", &self.no_position[..])];
        [
            Table::new("of these, records by the switch", &KINDS[1..], fit.chain(unfit)),
            Table::new("of these, Mode Sense's third byte sent", ["switch open", "switch closed"], sent),
            Table::new("of these, events with a position over 1", NO_POSITION, refused),
        ]
    }

    pub fn print(&self) {
        self.tables().iter().for_each(Table::print);
    }

    /// What is owed of a run and did not occur.
    pub fn missing(&self) -> Vec<String> {
        self.tables().iter().flat_map(Table::missing).collect()
    }
}
