//! Media too large to be compared whole after each event (document 02, A5 and A7).
//!
//! Their memory is zeros, nearly all of it never written, so that it costs nothing. Marked blocks hold random bytes, so
//! that a wrong block shows. After each event these blocks are compared, and all that was written so far; at the end of
//! a trial, everything is. The memory is kept from trial to trial: to read it for the first time costs the most.

use crate::compare::compare_bytes;
use crate::event::Lent;
use crate::own::{Own, LIMIT, MOST};
use crate::random::Random;
use ordinary::device::BLOCK;
use std::ops::Range;

/// The longest medium that is lent: over the limit of all units.
pub const LONGEST: usize = (MOST as usize * LIMIT as usize + 4) * BLOCK;
/// A device that keeps a block address in 12 or 16 bits, or a byte's place in 24, writes a block modulo one of these.
const WRAPS: [usize; 3] = [1 << 12, 1 << 16, (1 << 24) / BLOCK];

#[derive(Default)]
pub struct LargeMedia {
    /// Empty until there is a trial with a large medium.
    sides: [Vec<u8>; 2],
    own: usize,
    /// The longest medium lent since the trial began.
    reach: usize,
    /// The blocks that are compared after each event, in order. No other block was written.
    watched: Vec<usize>,
}

impl LargeMedia {
    /// Puts back zeros where they were not kept, and fills the marked blocks of a trial's medium.
    pub fn begin(&mut self, own: &Own, seed: u64) {
        if self.sides[0].is_empty() {
            self.sides = [(); 2].map(|()| vec![0; LONGEST]);
        }
        for block in std::mem::take(&mut self.watched) {
            self.sides.iter_mut().for_each(|side| side[bytes(block)].fill(0));
        }
        let mut random = Random::new(seed);
        for block in own.marked_in_medium().map(|block| block as usize) {
            let content = random.bytes(BLOCK as u64);
            self.sides.iter_mut().for_each(|side| side[bytes(block)].copy_from_slice(&content));
            self.watch(block);
        }
        (self.own, self.reach) = (own.bytes(), own.bytes());
    }

    pub fn own(&self) -> &[u8] {
        &self.sides[0][..self.own]
    }

    /// Another medium than the own is the same memory, cut at another length.
    pub fn lend(&mut self, lent: Lent) -> [&mut [u8]; 2] {
        let length = match lent {
            Lent::Own => self.own,
            Lent::Other(length) => length,
        };
        self.reach = self.reach.max(length);
        self.sides.each_mut().map(|side| &mut side[..length])
    }

    pub fn watch(&mut self, block: usize) {
        if let (Err(at), true) = (self.watched.binary_search(&block), block < LONGEST / BLOCK) {
            self.watched.insert(at, block);
        }
    }

    /// Watches a unit's block that is going to be written, and those that a device would write which has too few address
    /// bits, or which forgets where the unit begins.
    pub fn watch_write(&mut self, first: usize, block: usize) {
        for block in [first + block, block] {
            self.watch(block);
            WRAPS.iter().for_each(|wrap| self.watch(block % wrap));
        }
    }

    pub fn compare_watched(&self) -> Result<(), String> {
        let [a, b] = &self.sides;
        self.watched.iter().try_for_each(|&block| {
            compare_bytes(format_args!("medium, block {block}"), &a[bytes(block)], &b[bytes(block)])
        })
    }

    /// Compares all that was lent: the first block that differs.
    pub fn stray(&self) -> Option<usize> {
        let [a, b] = self.sides.each_ref().map(|side| &side[..self.reach]);
        if a == b {
            return None;
        }
        a.chunks(BLOCK).zip(b.chunks(BLOCK)).position(|(a, b)| a != b)
    }
}

fn bytes(block: usize) -> Range<usize> {
    block * BLOCK..(block + 1) * BLOCK
}
