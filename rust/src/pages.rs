//! Inquiry's product pages (document 02, A2), in the forms of SPC-3.

use crate::device::Identity;

/// The pages by their codes.
#[derive(Clone, Copy, Debug, PartialEq, Eq)]
pub enum Page {
    /// The list of the pages.
    Supported = 0x00,
    /// The unit serial number.
    Serial = 0x80,
    /// Device identification: one ASCII identifier, vendor based.
    Identification = 0x83,
}

const LONGEST: usize = 28;

impl Page {
    /// `None` for a page that the device does not have.
    pub fn from_code(code: u8) -> Option<Page> {
        match code {
            0x00 => Some(Page::Supported),
            0x80 => Some(Page::Serial),
            0x83 => Some(Page::Identification),
            _ => None,
        }
    }

    /// The bytes in front of the collector's digits. Their length fields tell of the whole page, however it is cut.
    fn head(self) -> &'static [u8] {
        match self {
            Page::Supported => b"\x00\x00\x00\x03\x00\x80\x83",
            Page::Serial => b"\x00\x80\x00\x0C",
            Page::Identification => b"\x00\x83\x00\x18\x02\x01\x00\x14COLLECT ",
        }
    }

    /// How many digits follow.
    fn digits(self) -> usize {
        match self {
            Page::Supported => 0,
            Page::Serial | Page::Identification => 12,
        }
    }

    /// The whole page's size.
    pub fn size(self) -> u32 {
        (self.head().len() + self.digits()) as u32
    }

    /// The page of a collector, and zeros behind it.
    pub fn bytes(self, identity: &Identity) -> [u8; LONGEST] {
        let mut bytes = [0; LONGEST];
        let (head, rest) = bytes.split_at_mut(self.head().len());
        head.copy_from_slice(self.head());
        let count = self.digits();
        rest[..count].copy_from_slice(&identity.digits()[..count]);
        bytes
    }
}
