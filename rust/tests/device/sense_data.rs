//! Request Sense's 18 bytes as document 02, A8 has them, and the senses that there are.

/// After a range failure: F0, and the first block outside the unit.
pub fn range_failure(block: u32) -> [u8; 18] {
    let [a, b, c, d] = block.to_be_bytes();
    [0xF0, 0, 0x05, a, b, c, d, 0x0A, 0, 0, 0, 0, 0x21, 0, 0, 0, 0, 0]
}

/// Any other sense: 70, and zeros.
pub fn other([key, asc, ascq]: [u8; 3]) -> [u8; 18] {
    [0x70, 0, key, 0, 0, 0, 0, 0x0A, 0, 0, 0, 0, asc, ascq, 0, 0, 0, 0]
}

pub const NONE: [u8; 3] = [0x00, 0x00, 0x00];
pub const OPERATION: [u8; 3] = [0x05, 0x20, 0x00];
pub const FIELD: [u8; 3] = [0x05, 0x24, 0x00];
pub const WRITE_PROTECTED: [u8; 3] = [0x07, 0x27, 0x00];
pub const DATA_PHASE: [u8; 3] = [0x0B, 0x4B, 0x00];
