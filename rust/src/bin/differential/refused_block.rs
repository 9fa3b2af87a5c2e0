//! What a run has met of the block that a range failure tells (document 02, A8): where a device that tells another one,
//! or that cuts it in another way, goes wrong.

use crate::block_place::{range, OPERATIONS};
use crate::coverage::{decide, unit_of, FAILED, PASSED};
use crate::state::State;
use crate::table::Table;
use ordinary::scsi::code;
use ordinary::unit::Unit;
use ordinary::wrapper::Cbw;
use std::ops::RangeInclusive;

/// A verdict, a name, and whether an address and a count are meant in a unit of so many blocks. What failed did so for
/// its range.
type Place = (usize, &'static str, fn(u32, u16, u32) -> bool);

const PLACES: [Place; 10] = [
    (PASSED, "last block passed", |address, count, blocks| address == blocks - 1 && count == 1),
    (PASSED, "end, count 0, passed", |address, count, blocks| address == blocks && count == 0),
    (FAILED, "last block, count 2", |address, count, blocks| address == blocks - 1 && count == 2),
    (FAILED, "inside", |address, _, blocks| address < blocks),
    (FAILED, "end, count 1", |address, count, blocks| address == blocks && count == 1),
    (FAILED, "1 past, count 0", |address, count, blocks| address == blocks + 1 && count == 0),
    (FAILED, "1 past, count 1", |address, count, blocks| address == blocks + 1 && count == 1),
    (FAILED, "FFFFFFFF, count 0", |address, count, _| address == u32::MAX && count == 0),
    (FAILED, "FFFFFFFF, count 1", |address, count, _| address == u32::MAX && count == 1),
    (FAILED, "four unlike bytes", |address, _, blocks| address > blocks && unlike_bytes(address)),
];

/// A name, and whether what Request Sense found is meant.
type Told = (&'static str, fn(&Unit) -> bool);

const TOLD: [Told; 2] = [
    ("the number of blocks", |found| found.sense_information == found.blocks),
    ("an address past it", |found| found.sense_information > found.blocks),
];

/// Allocation lengths: before the block, in it, just behind it, and so on.
const LENGTHS: [(&str, RangeInclusive<u8>); 7] = [
    ("0", 0..=0),
    ("1 to 3", 1..=3),
    ("4 to 6", 4..=6),
    ("7", 7..=7),
    ("8 to 17", 8..=17),
    ("18", 18..=18),
    ("19 to 255", 19..=255),
];

#[derive(Default)]
pub struct RefusedBlocks {
    /// By operation and place.
    places: [[u64; PLACES.len()]; OPERATIONS.len()],
    /// By what is told and allocation length.
    requests: [[u64; LENGTHS.len()]; TOLD.len()],
}

fn unlike_bytes(number: u32) -> bool {
    let bytes = number.to_be_bytes();
    bytes.iter().enumerate().all(|(at, byte)| *byte != 0 && !bytes[..at].contains(byte))
}

/// Whether a command fails for its range, and so tells a block.
pub fn fails_for_range(before: &State, cbw: &Cbw) -> bool {
    decide(before, cbw).is_err_and(|sense| sense.is_out_of_range())
}

impl RefusedBlocks {
    /// Notes an accepted wrapper's command and its verdict on a device that was in the state of `before`.
    pub fn note(&mut self, before: &State, cbw: &Cbw, verdict: usize) {
        let (block, unit) = (cbw.block, unit_of(before, cbw));
        if let Some(operation) = OPERATIONS.iter().position(|(code, _)| *code == block[0]) {
            let (address, count) = range(block);
            let good = verdict == PASSED || fails_for_range(before, cbw);
            for ((owed, _, holds), counts) in PLACES.iter().zip(&mut self.places[operation]) {
                *counts += u64::from(good && verdict == *owed && holds(address, count, unit.blocks));
            }
        }
        if block[0] == code::REQUEST_SENSE && verdict == PASSED && unit.sense().is_out_of_range() {
            self.note_request(unit, block[4]);
        }
    }

    fn note_request(&mut self, found: &Unit, length: u8) {
        for ((_, holds), counts) in TOLD.iter().zip(&mut self.requests) {
            for ((_, lengths), count) in LENGTHS.iter().zip(counts) {
                *count += u64::from(holds(found) && lengths.contains(&length));
            }
        }
    }

    fn tables(&self) -> [Table<'_>; 2] {
        let names = OPERATIONS.map(|(operation, name)| format!("{operation:02X} {name}"));
        let places = names.iter().zip(self.places.iter().map(|counts| &counts[..]));
        let told = TOLD.map(|(name, _)| name);
        let requests = told.iter().zip(self.requests.iter().map(|counts| &counts[..]));
        [
            Table::new(
                "range failures, and what just passed, by address",
                PLACES.map(|(_, name, _)| name),
                places,
            ),
            Table::new(
                "Request Sense that found a range failure, by allocation length",
                LENGTHS.map(|(name, _)| name),
                requests,
            ),
        ]
    }

    pub fn print(&self) {
        self.tables().iter().for_each(Table::print);
    }

    /// What is owed of a run and did not occur.
    pub fn missing(&self) -> Vec<String> {
        self.tables().iter().flat_map(Table::missing).collect()
    }
}
