//! What a run has met of senses in damaged and invented records and tables (document 02, A8): F0 follows the sense and not its
//! number, and number 10 follows both.

use crate::coverage::{accept, unit_of, verdict, PASSED};
use crate::event::{Event, KINDS};
use crate::page_record::fits;
use crate::pair::Played;
use crate::state::State;
use crate::table::Table;
use ordinary::record::{stage, Record};
use ordinary::scsi::code;
use ordinary::unit::Unit;
use ordinary::wrapper::Cbw;

/// 05/21/00, and each of its bytes off by one.
const SENSES: [[u8; 3]; 7] = [
    [0x05, 0x21, 0x00],
    [0x04, 0x21, 0x00],
    [0x06, 0x21, 0x00],
    [0x05, 0x20, 0x00],
    [0x05, 0x22, 0x00],
    [0x05, 0x21, 0x01],
    [0x05, 0x21, 0xFF],
];
/// Request Sense found the unit's sense, or an ask sent the reply in hand.
const TOLD: [&str; 4] = ["found, number 0", "found, a number", "sent, number 0", "sent, a number"];
const FOUND: usize = 0;
const SENT: usize = 2;
/// A reply of so many bytes has all of its number.
const NUMBER_END: u32 = 7;

/// A name, whether number 10 is the answer, and whether a state is meant. One that is refused has no other fault.
type Held = (&'static str, bool, fn(&State) -> bool);

const HELD: [Held; 5] = [
    ("unconfigured, no sense, fits", false, |state| !state.configured() && state.senses() == 0),
    ("unconfigured, a number, 10", true, |state| {
        !state.configured() && mended(state, |unit| Unit { sense_information: 0, ..unit })
    }),
    ("unconfigured, a sense without a number, 10", true, |state| {
        let mend = |unit| Unit { sense_key: 0, sense_asc: 0, sense_ascq: 0, ..unit };
        !state.configured() && mended(state, mend)
    }),
    ("configured, a number without a sense, fits", false, |state| {
        state.units.iter().any(|unit| unit.sense_information != 0 && unit_sense(unit) == [0; 3])
    }),
    ("configured, a range failure without a number, fits", false, |state| {
        state.units.iter().any(|unit| unit.sense_information == 0 && unit.sense().is_out_of_range())
    }),
];

/// Whether the table with every unit mended so fits.
fn mended(state: &State, mend: fn(Unit) -> Unit) -> bool {
    let units: Vec<Unit> = state.units.iter().map(|unit| mend(*unit)).collect();
    fits(state.record, &units)
}

#[derive(Default)]
pub struct SenseRecords {
    /// By stage and event. A making finds no record.
    extras: [[u64; KINDS.len()]; stage::COUNT],
    numbers: [[u64; KINDS.len()]; stage::COUNT],
    held: [[u64; KINDS.len()]; HELD.len()],
    told: [[u64; TOLD.len()]; SENSES.len()],
}

/// Key, ASC and ASCQ of a unit's sense.
fn unit_sense(unit: &Unit) -> [u8; 3] {
    [unit.sense_key, unit.sense_asc, unit.sense_ascq]
}

impl SenseRecords {
    /// Notes an event on a damaged or invented record.
    pub fn note(&mut self, before: &State, event: &Event, played: &Played) {
        let (kind, number) = (event.kind(), played.answer.number);
        let refused = number == 10;
        if usize::from(before.stage) < stage::COUNT {
            self.note_stage(before, kind, refused);
        }
        for ((_, owed, holds), counts) in HELD.iter().zip(&mut self.held) {
            counts[kind] += u64::from(refused == *owed && holds(before));
        }
        match (event, number, before.stage) {
            (Event::BulkOut { packet, .. }, 1, stage::READY) => {
                if let Some(cbw) = accept(before, packet).filter(|cbw| asks_sense(before, cbw)) {
                    let unit = unit_of(before, &cbw);
                    self.note_told(FOUND, unit_sense(unit), unit.sense_information);
                }
            }
            (event, 0, stage::REQUEST_SENSE) if event.asks() => {
                let [key, asc, ascq, _] = before.value.to_le_bytes();
                if before.place == 0 && before.left >= NUMBER_END {
                    self.note_told(SENT, [key, asc, ascq], before.extra);
                }
            }
            _ => {}
        }
    }

    fn note_stage(&mut self, before: &State, kind: usize, refused: bool) {
        let stage = usize::from(before.stage);
        let as_owed = || match before.stage {
            stage::REQUEST_SENSE => !refused,
            _ => refused && fits(Record { extra: 0, ..before.record }, &before.units),
        };
        self.extras[stage][kind] += u64::from(before.extra != 0 && as_owed());
        let number = before.any_sense(|sense| sense.information != 0);
        self.numbers[stage][kind] += u64::from(number && !refused);
    }

    fn note_told(&mut self, column: usize, sense: [u8; 3], number: u32) {
        if let Some(row) = SENSES.iter().position(|known| *known == sense) {
            self.told[row][column + usize::from(number != 0)] += 1;
        }
    }

    fn tables(&self) -> [Table<'_>; 4] {
        let extras = (0..).zip(&self.extras).map(|(stage, counts)| match stage {
            stage::REQUEST_SENSE => (format!("stage {stage}, fits"), &counts[1..]),
            _ => (format!("stage {stage}, 10"), &counts[1..]),
        });
        let numbers = self.numbers.iter().enumerate();
        let numbers = numbers.map(|(stage, counts)| (format!("stage {stage}, fits"), &counts[1..]));
        let held = HELD.iter().zip(&self.held).map(|((name, ..), counts)| (name, &counts[1..]));
        let names = SENSES.map(|[key, asc, ascq]| format!("{key:02X}/{asc:02X}/{ascq:02X}"));
        let told = names.iter().zip(self.told.iter().map(|counts| &counts[..]));
        [
            Table::new("of these, records with extra not 0", &KINDS[1..], extras),
            Table::new("of these, tables with a number of a unit's sense", &KINDS[1..], numbers),
            Table::new("of these, tables by the units' senses", &KINDS[1..], held),
            Table::new("of these, senses told", TOLD, told),
        ]
    }

    pub fn print(&self) {
        self.tables().iter().for_each(Table::print);
    }

    /// What is owed of a run and did not occur.
    pub fn missing(&self) -> Vec<String> {
        self.tables().iter().flat_map(Table::missing).collect()
    }
}

/// Whether a wrapper is a Request Sense that passes, with room for the number.
fn asks_sense(before: &State, cbw: &Cbw) -> bool {
    let (_, verdict) = verdict(before, cbw);
    cbw.block[0] == code::REQUEST_SENSE && verdict == PASSED && u32::from(cbw.block[4]) >= NUMBER_END
}
