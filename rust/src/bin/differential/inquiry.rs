//! Inquiry's fields: standard data and product pages (document 02, A1 and A2).

use crate::random::Random;
use ordinary::scsi::code;

/// The product pages' codes and sizes. They are not the ordinary device's, so that another size there shows.
pub const PAGES: [(u8, u16); 3] = [(0x00, 7), (0x80, 16), (0x83, 28)];
const STANDARD_SIZE: u16 = 36;
pub const EVPD: u8 = 0x01;

pub fn is_page(code: u8) -> bool {
    PAGES.iter().any(|(page, _)| *page == code)
}

/// Whether a block asks for a product page, one that there is or not.
pub fn asks_page(block: &[u8; 16]) -> bool {
    block[0] == code::INQUIRY && block[1] & EVPD != 0
}

/// The allocation length: bytes 3 and 4, big endian.
pub fn length(block: &[u8; 16]) -> u16 {
    u16::from_be_bytes([block[3], block[4]])
}

/// Sets EVPD, the page code and the allocation length: mostly what the device serves. The other bits of byte 1 stay.
pub fn set_fields(random: &mut Random, block: &mut [u8; 16]) {
    let (page, size) = random.pick(&PAGES);
    let other = match random.below(3) {
        0 => random.number() as u8,
        _ => page ^ 1 << random.below(8),
    };
    let (evpd, page, size) = match random.below(8) {
        0..=2 => (false, 0, STANDARD_SIZE),
        3 => (false, random.pick(&[page, page, other]), STANDARD_SIZE),
        4..=6 => (true, page, size),
        _ => (true, other, size),
    };
    block[1] = block[1] & !EVPD | u8::from(evpd);
    block[2] = page;
    block[3..5].copy_from_slice(&some_length(random, size).to_be_bytes());
}

/// An allocation length for a reply of `size` bytes: none, less than these, just these, more by byte 4
/// alone, by one bit of byte 3 alone, by byte 3 with a byte 4 that alone would give less, the most there is.
fn some_length(random: &mut Random, size: u16) -> u16 {
    let less = 1 + random.below(u64::from(size) - 1) as u16;
    match random.below(12) {
        0 => 0,
        1 | 2 => less,
        3 => size,
        4 => size + 1 + random.below(255 - u64::from(size)) as u16,
        5 => 256,
        6 => 256 << random.below(8),
        7 | 8 => (1 + random.below(255) as u16) << 8 | less,
        9 => u16::MAX,
        10 => random.pick(&[size - 1, size + 1, 255, 257]),
        _ => random.number() as u16,
    }
}
