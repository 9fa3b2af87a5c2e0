//! The Bulk-Only Transport's wrappers: CBW and CSW (§ Wrappers).

use crate::scsi;

pub const CBW_SIZE: usize = 31;
pub const CSW_SIZE: usize = 13;
pub const CBW_SIGNATURE: [u8; 4] = *b"USBC";
pub const CSW_SIGNATURE: [u8; 4] = *b"USBS";

/// An accepted command wrapper. The command block stays where it stands in the packet.
#[derive(Clone, Copy, Debug)]
pub struct Cbw<'a> {
    pub tag: u32,
    pub announced: u32,
    /// The host's direction is in; without meaning where it announces 0.
    pub data_in: bool,
    /// The logical unit.
    pub unit: u8,
    pub block: &'a [u8; 16],
}

impl<'a> Cbw<'a> {
    /// Reads a packet as a wrapper; `None` unless it is readable, for one of so many units, and its block is long enough.
    pub fn accept(packet: &'a [u8], units: usize) -> Option<Cbw<'a>> {
        let packet: &[u8; CBW_SIZE] = packet.try_into().ok()?;
        let (header, block) = packet.split_first_chunk::<15>()?;
        let block: &[u8; 16] = block.try_into().ok()?;
        let [flags, unit, length] = [header[12], header[13], header[14]];
        let readable = header[..4] == CBW_SIGNATURE
            && flags & 0x7F == 0
            && unit & 0xF0 == 0
            && length & 0xE0 == 0
            && (1..=16).contains(&length);
        let accepted = readable && usize::from(unit) < units && length >= scsi::block_length(block[0]);
        accepted.then(|| Cbw {
            tag: u32::from_le_bytes([header[4], header[5], header[6], header[7]]),
            announced: u32::from_le_bytes([header[8], header[9], header[10], header[11]]),
            data_in: flags & 0x80 != 0,
            unit,
            block,
        })
    }
}

/// A status wrapper's verdict.
#[derive(Clone, Copy, Debug, PartialEq, Eq)]
pub enum Status {
    Passed = 0,
    Failed = 1,
    PhaseError = 2,
}

/// A status wrapper.
pub struct Csw {
    pub tag: u32,
    pub residue: u32,
    pub status: Status,
}

impl Csw {
    /// Writes the wrapper to a buffer of `CSW_SIZE` bytes.
    pub fn write(&self, out: &mut [u8]) {
        out[..4].copy_from_slice(&CSW_SIGNATURE);
        out[4..8].copy_from_slice(&self.tag.to_le_bytes());
        out[8..12].copy_from_slice(&self.residue.to_le_bytes());
        out[12] = self.status as u8;
    }
}
