//! The product pages of Inquiry (document 02, A2) as they are on the bus: data, halt and residue. The collector's number is 0.

use crate::bot::{cbw, clear_halts, csw, recover, test_unit_ready};
use crate::usbfs::EPIPE;
use crate::{ends_with, equal, passes, Outcome, Probe};

const PAGE_00: &[u8] = b"\x00\x00\x00\x03\x00\x80\x83";
const PAGE_80: &[u8] = b"\x00\x80\x00\x0C000000000000";
const PAGE_83: &[u8] = b"\x00\x83\x00\x18\x02\x01\x00\x14COLLECT 000000000000";

/// Inquiry with EVPD set.
fn inquiry(page: u8, allocation: u16) -> [u8; 6] {
    let [byte_3, byte_4] = allocation.to_be_bytes();
    [0x12, 0x01, page, byte_3, byte_4, 0]
}

impl Probe {
    /// Each page where more is announced than it has: whole, whole by two bytes of allocation length, and cut.
    pub fn page_residue(&self) -> Outcome {
        self.short_data(0x201, 64, &inquiry(0x80, 64), PAGE_80)?;
        self.short_data(0x202, 256, &inquiry(0x00, 256), PAGE_00)?;
        self.short_data(0x203, 64, &inquiry(0x83, 10), &PAGE_83[..10])?;
        Ok("16, 7 and 10 bytes, a stall after each, residues 48, 249 and 54".into())
    }

    /// Allocation length 0 is "no data": the pipe halts at the wrapper, and all that was announced is left.
    pub fn page_of_0(&self) -> Outcome {
        self.short_data(0x204, 64, &inquiry(0x83, 0), &[])
    }

    /// A host that announces less than the page has gets nothing of it.
    pub fn page_phase_error(&self) -> Outcome {
        let wrapper = cbw(0x205, 27, true, 0, &inquiry(0x83, 28));
        passes("a wrapper", self.device.bulk_out(&wrapper, None))?;
        ends_with("the pipe at once", EPIPE, self.device.bulk_in(27, None))?;
        passes("Clear Feature", clear_halts(&self.device))?;
        equal("status", &passes("status", self.device.bulk_in(13, None))?, &csw(0x205, 27, 2))?;
        passes("reset recovery", recover(&self.device))?;
        passes("Test Unit Ready after it", test_unit_ready(&self.device, 0x206))?;
        Ok("no data, a stall, phase error, residue 27".into())
    }

    /// All 256 page codes with allocation length 0, which does not save a page that there is not: fields are checked first.
    pub fn page_codes(&self) -> Outcome {
        for page in 0..=0xFF {
            let tag = 0x300 + u32::from(page);
            let failed = u8::from(!matches!(page, 0x00 | 0x80 | 0x83));
            passes("a wrapper", self.device.bulk_out(&cbw(tag, 0, false, 0, &inquiry(page, 0)), None))?;
            let status = passes("status", self.device.bulk_in(13, None))?;
            equal(&format!("status of page {page:02X}"), &status, &csw(tag, 0, failed))?;
        }
        Ok("00, 80 and 83 pass, all others fail".into())
    }
}
