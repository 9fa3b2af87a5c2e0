//! What a run has met of product pages (document 02, A2): where a device with another size, another cut or other digits
//! goes wrong.

use crate::coverage::{FAILED, PASSED};
use crate::inquiry::{asks_page, length, PAGES};
use crate::table::Table;
use ordinary::cases::Case;
use ordinary::device::MAX_NUMBER;
use ordinary::record::Record;

/// A name, and whether an allocation length for a page of some size is meant.
type Length = (&'static str, fn(u16, u16) -> bool);

const LENGTHS: [Length; 6] = [
    ("none", |length, _| length == 0),
    ("cut", |length, size| (1..size).contains(&length)),
    ("its size", |length, size| length == size),
    ("more by byte 4", |length, size| (size + 1..256).contains(&length)),
    ("byte 4 alone cuts", |length, size| length >= 256 && length % 256 < size),
    ("65,535", |length, _| length == u16::MAX),
];

/// The meetings of a page that is served: it has data in, or none.
const MEETINGS: [Case; 8] = [
    Case::HnDn,
    Case::HnDi,
    Case::HiOverDn,
    Case::HiOverDi,
    Case::HiEqualDi,
    Case::HiUnderDi,
    Case::HoOverDn,
    Case::HoDi,
];

/// A name, and whether the collector number of a page that was sent whole is meant.
type Number = (&'static str, fn(u64) -> bool);

/// Where the digits of pages 80 and 83 go wrong; page 00 has none.
const NUMBERS: [Number; 5] = [
    ("number 0", |number| number == 0),
    ("zeros in front", |number| (1..100_000_000_000).contains(&number)),
    ("over 32 bits", |number| number > u32::MAX.into()),
    ("no zero in front", |number| number >= 100_000_000_000),
    ("the greatest", |number| number == MAX_NUMBER),
];

#[derive(Default)]
pub struct ProductPages {
    /// By page and column.
    lengths: [[u64; LENGTHS.len()]; PAGES.len()],
    meetings: [[u64; MEETINGS.len()]; PAGES.len()],
    numbers: [[u64; NUMBERS.len()]; PAGES.len()],
}

impl ProductPages {
    /// Notes an accepted Inquiry, its meeting and its verdict at the wrapper.
    pub fn note(&mut self, block: &[u8; 16], case: Case, verdict: usize) {
        let Some(page) = PAGES.iter().position(|(code, _)| asks_page(block) && *code == block[2]) else {
            return;
        };
        if verdict == PASSED {
            for ((_, holds), count) in LENGTHS.iter().zip(&mut self.lengths[page]) {
                *count += u64::from(holds(length(block), PAGES[page].1));
            }
        }
        if verdict != FAILED {
            for (meeting, count) in MEETINGS.iter().zip(&mut self.meetings[page]) {
                *count += u64::from(*meeting == case);
            }
        }
    }

    /// Notes a packet of a page that the state of `before` gave.
    pub fn note_sent(&mut self, before: &Record) {
        let whole = |(code, size): &(u8, u16)| {
            (before.value, before.place, before.left) == ((*code).into(), 0, (*size).into())
        };
        let Some(page) = PAGES.iter().position(whole) else { return };
        for ((_, holds), count) in NUMBERS.iter().zip(&mut self.numbers[page]) {
            *count += u64::from(holds(before.number));
        }
    }

    fn tables(&self) -> [Table<'_>; 3] {
        let codes = PAGES.map(|(code, _)| format!("{code:02X}"));
        let lengths = codes.iter().zip(self.lengths.iter().map(|counts| &counts[..]));
        let meetings = codes.iter().zip(self.meetings.iter().map(|counts| &counts[..]));
        let numbers = codes.iter().zip(self.numbers.iter().map(|counts| &counts[..]));
        [
            Table::new(
                "product pages that passed, by allocation length",
                LENGTHS.map(|(name, _)| name),
                lengths,
            ),
            Table::new("product pages by meeting", MEETINGS.map(|case| format!("{case:?}")), meetings),
            Table::new(
                "product pages sent whole, by collector number",
                NUMBERS.map(|(name, _)| name),
                numbers,
            ),
        ]
    }

    pub fn print(&self) {
        self.tables().iter().for_each(Table::print);
    }

    /// What is owed of a run and did not occur.
    pub fn missing(&self) -> Vec<String> {
        self.tables().iter().flat_map(Table::missing).collect()
    }
}
