//! What a run has met of sizes of media (document 02, A5 and A7): where a device with another limit, or with too few bits for
//! a size, goes wrong.

use crate::event::Event;
use crate::own::LIMIT;
use crate::pair::Played;
use crate::state::State;
use ordinary::device::BLOCK;

/// The kind and the answer of an event, a name, and whether a medium of so many bytes is meant, lent with a table of so
/// many blocks.
type Size = (Kind, u32, &'static str, fn(usize, u64) -> bool);

#[derive(Clone, Copy, PartialEq, Eq)]
enum Kind {
    Make,
    Bulk,
}

const LARGEST: usize = LIMIT as usize * BLOCK;

const SIZES: [Size; 12] = [
    (Kind::Make, 1, "1 block", |bytes, _| bytes == BLOCK),
    (Kind::Make, 1, "2 to 4,095 blocks", |bytes, _| (2 * BLOCK..4096 * BLOCK).contains(&bytes)),
    (Kind::Make, 1, "4,096 blocks", |bytes, _| bytes == 4096 * BLOCK),
    (Kind::Make, 1, "4,097 to 65,536 blocks", |bytes, _| (4097 * BLOCK..=65_536 * BLOCK).contains(&bytes)),
    (Kind::Make, 1, "65,537 to 1,048,575 blocks", |bytes, _| (65_537 * BLOCK..LARGEST).contains(&bytes)),
    (Kind::Make, 1, "1,048,576 blocks", |bytes, _| bytes == LARGEST),
    (Kind::Make, 11, "0 bytes", |bytes, _| bytes == 0),
    (Kind::Make, 11, "no multiple of 512 bytes", |bytes, _| !bytes.is_multiple_of(BLOCK)),
    (Kind::Make, 1, "over 1,048,576 blocks", |bytes, _| bytes > LARGEST),
    (Kind::Make, 1, "over 2,097,152 blocks", |bytes, _| bytes > 2 * LARGEST),
    (Kind::Bulk, 11, "apart by a multiple of 4,096 blocks", |bytes, blocks| apart(bytes, blocks, 4096)),
    (Kind::Bulk, 11, "apart by a multiple of 65,536 blocks", |bytes, blocks| apart(bytes, blocks, 65_536)),
];

#[derive(Default)]
pub struct MediumSizes {
    counts: [u64; SIZES.len()],
}

/// Whether a size cannot be told from a table's number of blocks by its remainder.
fn apart(bytes: usize, blocks: u64, modulus: usize) -> bool {
    bytes > 0 && bytes.abs_diff(blocks as usize * BLOCK).is_multiple_of(modulus * BLOCK)
}

impl MediumSizes {
    /// Notes an event that was played on a device that was in the state of `before`.
    pub fn note(&mut self, before: &State, event: &Event, played: &Played) {
        let kind = match event {
            Event::Make { .. } => Kind::Make,
            Event::BulkOut { .. } | Event::BulkIn { .. } | Event::Show { .. } => Kind::Bulk,
            Event::BusReset | Event::Control { .. } | Event::Reply { .. } | Event::Switch { .. } => return,
        };
        let event = (kind, played.answer.number);
        for ((kind, number, _, holds), count) in SIZES.iter().zip(&mut self.counts) {
            *count += u64::from((*kind, *number) == event && holds(played.medium, before.blocks()));
        }
    }

    pub fn print(&self) {
        println!("\nmedia by answer and size");
        for (size, count) in SIZES.iter().zip(&self.counts) {
            println!("  {:<58}{count:>9}", name(size));
        }
    }

    /// What is owed of a run and did not occur.
    pub fn missing(&self) -> Vec<String> {
        SIZES.iter().zip(&self.counts).filter(|(_, count)| **count == 0).map(|(size, _)| name(size)).collect()
    }
}

fn name((kind, number, name, _): &Size) -> String {
    let kind = match kind {
        Kind::Make => "make",
        Kind::Bulk => "bulk event",
    };
    format!("{kind} answered {number}: {name}")
}
