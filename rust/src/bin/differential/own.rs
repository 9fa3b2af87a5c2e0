//! A trial's own units and medium: their sizes, and the blocks that a host aims at in a large medium (document 02, A5
//! and A7).

use crate::random::Random;
use ordinary::device::BLOCK;
use ordinary::unit::{table, Unit};
use std::ops::RangeInclusive;

/// The most blocks of a unit. It is not the ordinary device's constant, so that another limit there shows.
pub const LIMIT: u32 = 1_048_576;
/// The most blocks of a medium that is compared whole after each event.
pub const SMALL: u32 = 4096;
/// The most units. It is not the ordinary device's constant either.
pub const MOST: u64 = 4;
/// The widths of a block address with which a device goes wrong in a large medium.
const WIDTHS: RangeInclusive<u32> = 12..=19;
const SCATTERED: usize = 16;

pub struct Own {
    pub sizes: Vec<u32>,
    /// By unit, in its own numbers. None in a small medium: each of its blocks is filled.
    pub marked: Vec<Vec<u32>>,
}

impl Own {
    pub fn new(random: &mut Random, sizes: Vec<u32>) -> Own {
        let large = sizes.iter().sum::<u32>() > SMALL;
        let marked = sizes.iter().map(|blocks| if large { marks(random, *blocks) } else { vec![] });
        Own { marked: marked.collect(), sizes }
    }

    pub fn blocks(&self) -> u32 {
        self.sizes.iter().sum()
    }

    pub fn is_large(&self) -> bool {
        self.blocks() > SMALL
    }

    pub fn bytes(&self) -> usize {
        self.blocks() as usize * BLOCK
    }

    /// The table as it is before the making.
    pub fn units(&self) -> Vec<Unit> {
        table(&self.sizes)
    }

    /// The marked blocks in the medium's numbers.
    pub fn marked_in_medium(&self) -> impl Iterator<Item = u32> + '_ {
        let marked = |(unit, marked): (Unit, &Vec<u32>)| {
            marked.iter().map(|block| unit.first + block).collect::<Vec<_>>()
        };
        self.units().into_iter().zip(&self.marked).flat_map(marked)
    }

    /// The marked blocks of a unit; none of one beyond the table.
    pub fn marked_of(&self, unit: u8) -> &[u32] {
        self.marked.get(usize::from(unit)).map_or(&[], |marked| marked)
    }
}

/// One to four units of these sizes.
pub fn several(random: &mut Random, mut size: impl FnMut(&mut Random) -> u32) -> Vec<u32> {
    let count = 1 + random.below(MOST);
    (0..count).map(|_| size(random)).collect()
}

/// A large unit alone, one among small ones, or more than one.
pub fn large_units(random: &mut Random) -> Vec<u32> {
    match random.below(3) {
        0 => vec![large(random)],
        1 => (0..random.pick(&[2, 3, 4, 4])).map(|_| large(random)).collect(),
        _ => {
            let mut sizes = several(random, |random| 1 + random.below(8) as u32);
            let at = random.below(sizes.len() as u64) as usize;
            sizes[at] = large(random);
            sizes
        }
    }
}

/// The size of a large unit: half of them are the largest.
fn large(random: &mut Random) -> u32 {
    let between = |random: &mut Random, from: u32, to: u32| from + random.below((to - from).into()) as u32;
    match random.below(12) {
        0 => SMALL + 1,
        1 => 1 << 16,
        2 => (1 << 16) + 1,
        3 => LIMIT - 1,
        4 => between(random, SMALL + 1, 1 << 16),
        5 => between(random, 1 << 16, LIMIT),
        _ => LIMIT,
    }
}

/// A unit's first and last blocks, those around each power of two, those before the last by such a power, and some at
/// random; in order.
fn marks(random: &mut Random, blocks: u32) -> Vec<u32> {
    let last = blocks - 1;
    let mut marks = vec![0, 1, last.wrapping_sub(1), last];
    for power in WIDTHS.map(|width| 1 << width) {
        marks.extend([power - 1, power, power + 1, last.wrapping_sub(power)]);
    }
    marks.extend((0..SCATTERED).map(|_| random.below(blocks.into()) as u32));
    marks.retain(|block| *block < blocks);
    marks.sort_unstable();
    marks.dedup();
    marks
}
