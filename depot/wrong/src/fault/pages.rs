//! Faults of the product pages (document 02, A2).

use super::{chosen, Fault};
use crate::record::{stage, Record};
use crate::scsi::code;

const EVPD: u8 = 0x01;
const SERVED: [u8; 3] = [0x00, 0x80, 0x83];

/// Makes of an Inquiry for a page what a device with the fault takes it for.
pub fn misread(block: &mut [u8]) {
    let for_page = block[0] == code::INQUIRY && block[1] & EVPD != 0;
    if chosen() == Fault::PageRefusal && for_page && !SERVED.contains(&block[2]) {
        (block[1], block[2]) = (0, 0);
    }
}

/// The page that a device with the fault has in place of the one that is about to be sent; it is no longer than that.
fn page(record: &Record) -> Option<Vec<u8>> {
    if record.stage != stage::PRODUCT_PAGE {
        return None;
    }
    match (chosen(), record.value) {
        (Fault::PageDigits, 0x80) => {
            let digits = record.number.to_string();
            Some([&[0x00, 0x80, 0x00, digits.len() as u8], digits.as_bytes()].concat())
        }
        (Fault::PageVendor, 0x83) => {
            let identifier = format!("COLLECT{:012}", record.number);
            let length = identifier.len() as u8;
            Some([&[0x00, 0x83, 0x00, 4 + length, 0x02, 0x01, 0x00, length], identifier.as_bytes()].concat())
        }
        _ => None,
    }
}

/// At the wrapper: no more is due than the page has.
pub fn begin(record: &mut Record) {
    if let Some(page) = page(record) {
        record.left = record.left.min(page.len() as u32);
    }
}

/// At the ask: its bytes. A page goes in one packet.
pub fn send(before: &Record, sent: &mut [u8]) {
    if let Some(page) = page(before) {
        sent.copy_from_slice(&page[..sent.len()]);
    } else if chosen() == Fault::PageCut && before.stage == stage::PRODUCT_PAGE && sent.len() >= 4 {
        sent[3] = sent.len() as u8 - 4;
    }
}
