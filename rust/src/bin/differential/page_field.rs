//! What a run has met of Inquiry's EVPD and page code (document 02, A2): where a device that reads them in another way,
//! or that lets the allocation length cut before they are checked, goes wrong.

use crate::coverage::{FAILED, PASSED};
use crate::inquiry::{asks_page, is_page, length, EVPD, PAGES};
use ordinary::scsi::{control_place, REFUSED_CONTROL_BITS};
use std::collections::BTreeSet;

/// A verdict, a name, and whether an Inquiry is meant. One that failed has one fault only.
type Field = (usize, &'static str, fn(&[u8; 16]) -> bool);

const FIELDS: [Field; 10] = [
    (PASSED, "passed: a page, other bits of byte 1 set", |block| asks_page(block) && block[1] != EVPD),
    (PASSED, "passed: standard data, bit 1 of byte 1 set", |block| block[1] & 0x03 == 0x02),
    (FAILED, "failed: no EVPD, page 80 or 83", |block| bare_page(block)),
    (FAILED, "failed: no EVPD, page 80 or 83, bit 1 of byte 1 set", |block| {
        bare_page(block) && block[1] & 0x02 != 0
    }),
    (FAILED, "failed: no EVPD, page 80 or 83, allocation length 0", |block| {
        bare_page(block) && length(block) == 0
    }),
    (FAILED, "failed: another page", |block| other_page(block) && length(block) > 0),
    (FAILED, "failed: another page, allocation length 0", |block| other_page(block) && length(block) == 0),
    (FAILED, "failed: another page, other bits of byte 1 set", |block| other_page(block) && block[1] != EVPD),
    (FAILED, "failed: a page, its control byte", |block| refused_control(block)),
    (FAILED, "failed: a page, its control byte, allocation length 0", |block| {
        refused_control(block) && length(block) == 0
    }),
];

#[derive(Default)]
pub struct PageFields {
    counts: [u64; FIELDS.len()],
    /// The other pages' codes that were refused.
    refused: BTreeSet<u8>,
}

fn control_is_good(block: &[u8; 16]) -> bool {
    control_place(block[0]).is_some_and(|place| block[place] & REFUSED_CONTROL_BITS == 0)
}

fn bare_page(block: &[u8; 16]) -> bool {
    control_is_good(block) && !asks_page(block) && [0x80, 0x83].contains(&block[2])
}

fn other_page(block: &[u8; 16]) -> bool {
    control_is_good(block) && asks_page(block) && !is_page(block[2])
}

fn refused_control(block: &[u8; 16]) -> bool {
    !control_is_good(block) && asks_page(block) && is_page(block[2])
}

/// The other pages' codes that are one bit from a page: a device that looks at too few bits serves them.
fn near_codes() -> BTreeSet<u8> {
    let near = |(code, _)| (0..8).map(move |bit| code ^ 1 << bit);
    PAGES.into_iter().flat_map(near).filter(|code| !is_page(*code)).collect()
}

impl PageFields {
    /// Notes an accepted Inquiry and its verdict at the wrapper.
    pub fn note(&mut self, block: &[u8; 16], verdict: usize) {
        for ((owed, _, holds), count) in FIELDS.iter().zip(&mut self.counts) {
            *count += u64::from(verdict == *owed && holds(block));
        }
        if verdict == FAILED && other_page(block) {
            self.refused.insert(block[2]);
        }
    }

    pub fn print(&self) {
        println!("\nInquiry by EVPD, page code and control byte");
        for ((_, name, _), count) in FIELDS.iter().zip(&self.counts) {
            println!("  {name:<58}{count:>9}");
        }
        println!("  {:<58}{:>9}", "other pages' codes that failed, of 253", self.refused.len());
    }

    /// What is owed of a run and did not occur.
    pub fn missing(&self) -> Vec<String> {
        let absent = FIELDS.iter().zip(&self.counts).filter(|(_, count)| **count == 0);
        let mut missing: Vec<String> = absent.map(|((_, name, _), _)| format!("Inquiry {name}")).collect();
        missing.extend(
            near_codes().difference(&self.refused).map(|code| format!("Inquiry failed: page {code:02X}")),
        );
        missing
    }
}
