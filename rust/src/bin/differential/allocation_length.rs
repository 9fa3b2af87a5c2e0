//! What a run has met of allocation lengths (document 02, A1): Inquiry's where a device that reads one byte, or swaps the
//! two, goes wrong; those of Request Sense and Mode Sense where a device that reads two bytes does. The product pages have
//! a table of their own.

use crate::inquiry;
use ordinary::scsi::code;

/// A code, a name, and whether bytes 3 and 4 of a block of that code lie there.
type Region = (u8, &'static str, fn(u8, u8) -> bool);

/// Inquiry's reply has 36 bytes, that of Request Sense 18, that of Mode Sense 4.
const REGIONS: [Region; 11] = [
    (code::INQUIRY, "none", |high, low| high == 0 && low == 0),
    (code::INQUIRY, "cut", |high, low| high == 0 && (1..36).contains(&low)),
    (code::INQUIRY, "whole by byte 4 alone", |high, low| high == 0 && low >= 36),
    (code::INQUIRY, "whole by byte 3 alone (byte 4 at 0)", |high, low| high > 0 && low == 0),
    (code::INQUIRY, "whole by byte 3 (byte 4 from 1 to 35)", |high, low| high > 0 && (1..36).contains(&low)),
    (code::INQUIRY, "whole by either byte", |high, low| high > 0 && low >= 36),
    (code::INQUIRY, "whole (65,535)", |high, low| high == 0xFF && low == 0xFF),
    (code::REQUEST_SENSE, "none (byte 3 set)", |high, low| high > 0 && low == 0),
    (code::REQUEST_SENSE, "cut by byte 4 (byte 3 set)", |high, low| high > 0 && (1..18).contains(&low)),
    (code::MODE_SENSE, "none (byte 3 set)", |high, low| high > 0 && low == 0),
    (code::MODE_SENSE, "cut by byte 4 (byte 3 set)", |high, low| high > 0 && (1..4).contains(&low)),
];

#[derive(Default)]
pub struct AllocationLengths {
    counts: [u64; REGIONS.len()],
}

impl AllocationLengths {
    /// Notes a block whose command passed.
    pub fn note_passed(&mut self, block: &[u8; 16]) {
        if inquiry::asks_page(block) {
            return;
        }
        for ((operation, _, holds), count) in REGIONS.iter().zip(&mut self.counts) {
            *count += u64::from(block[0] == *operation && holds(block[3], block[4]));
        }
    }

    pub fn print(&self) {
        println!("\naccepted wrappers that passed, by allocation length");
        for ((operation, name, _), count) in REGIONS.iter().zip(&self.counts) {
            println!("  {operation:02X} {name:<38}{count:>9}");
        }
    }

    /// What is owed of a run and did not occur.
    pub fn missing(&self) -> Vec<String> {
        let absent = REGIONS.iter().zip(&self.counts).filter(|(_, count)| **count == 0);
        absent.map(|((operation, name, _), _)| format!("{operation:02X} allocation length: {name}")).collect()
    }
}
