//! Which block was refused (document 02, A8): a range failure's sense to the byte, how long it stays, and what ends it.
//! The medium has 128 blocks.

use crate::bot::{
    cbw, csw, mass_storage_reset, read_10, read_block, recover, test_unit_ready, verify_10, write_10,
    TEST_UNIT_READY,
};
use crate::usbfs::EPIPE;
use crate::{ends_with, equal, passes, Outcome, Probe};

pub const BLOCKS: u32 = 128;
pub const SENSE: usize = 18;
const INVALID_CODE: u8 = 0x20;
const INVALID_FIELD: u8 = 0x24;

pub type Step = Result<(), String>;

/// What drops the command. After the port's reset the kernel sets the configuration again.
pub const RESETS: [fn(&Probe) -> Step; 3] = [
    |probe| passes("Mass Storage Reset", mass_storage_reset(&probe.device)),
    |probe| passes("Set Configuration", probe.device.control(0x00, 0x09, 1, 0, 0).map(|_| ())),
    |probe| passes("port reset", probe.device.reset_without_driver()),
];
/// The same, and what only a drop gets the device out of.
pub const DROPS: [fn(&Probe) -> Step; 5] =
    [RESETS[0], RESETS[1], Probe::phase_error, Probe::broken_wrapper, RESETS[2]];

/// Request Sense's bytes after a range failure: VALID in byte 0, and INFORMATION.
pub fn out_of_range(block: u32) -> [u8; SENSE] {
    let [a, b, c, d] = block.to_be_bytes();
    [0xF0, 0, 5, a, b, c, d, 0x0A, 0, 0, 0, 0, 0x21, 0, 0, 0, 0, 0]
}

/// Any other sense has neither.
pub fn other(key: u8, code: u8) -> [u8; SENSE] {
    [0x70, 0, key, 0, 0, 0, 0, 0x0A, 0, 0, 0, 0, code, 0, 0, 0, 0, 0]
}

impl Probe {
    /// A command without data that ends with this status.
    fn ends(&self, tag: u32, block: &[u8], status: u8) -> Step {
        self.ends_for(0, tag, block, status)
    }

    pub fn ends_for(&self, unit: u8, tag: u32, block: &[u8], status: u8) -> Step {
        passes("a wrapper", self.device.bulk_out(&cbw(tag, 0, false, unit, block), None))?;
        equal(
            &format!("status of {:02X}", block[0]),
            &passes("status", self.device.bulk_in(13, None))?,
            &csw(tag, 0, status),
        )
    }

    /// Document 02's example: address 120, count 10, 128 blocks.
    pub fn range_failure(&self, tag: u32) -> Step {
        self.ends(tag, &read_10(120, 10), 1)
    }

    /// Request Sense with this allocation length brings these bytes, which are all that it announces.
    pub fn request_sense(&self, tag: u32, most: u8, expected: &[u8]) -> Step {
        self.request_sense_for(0, tag, most, expected)
    }

    pub fn request_sense_for(&self, unit: u8, tag: u32, most: u8, expected: &[u8]) -> Step {
        let wrapper = cbw(tag, expected.len() as u32, true, unit, &[0x03, 0, 0, 0, most, 0]);
        passes("a wrapper", self.device.bulk_out(&wrapper, None))?;
        if !expected.is_empty() {
            let data = passes("sense data", self.device.bulk_in(expected.len() as u32, None))?;
            equal(&format!("sense data of {most}"), &data, expected)?;
        }
        equal("status", &passes("status", self.device.bulk_in(13, None))?, &csw(tag, 0, 0))
    }

    pub fn no_sense(&self, tag: u32) -> Step {
        self.request_sense(tag, SENSE as u8, &other(0, 0))
    }

    /// The larger of address and blocks, also with count 0 and with a sum that does not fit in 32 bits. It is told once.
    pub fn information_bytes(&self) -> Outcome {
        let cases = [
            (read_10(120, 10), BLOCKS),
            (read_10(0, 0xFFFF), BLOCKS),
            (read_10(BLOCKS, 1), BLOCKS),
            (read_10(129, 0), 129),
            (read_10(0x0102_0304, 1), 0x0102_0304),
            (read_10(0xFFFF_FFFF, 1), 0xFFFF_FFFF),
            (write_10(120, 10), BLOCKS),
            (write_10(0xFFFF_FF81, 0xFF), 0xFFFF_FF81),
            (verify_10(127, 2), BLOCKS),
            (verify_10(0xFFFF_FFFF, 0), 0xFFFF_FFFF),
        ];
        for (n, (block, number)) in (0..).zip(cases) {
            let tag = 0x400 + 3 * n;
            self.ends(tag, &block, 1)?;
            self.request_sense(tag + 1, SENSE as u8, &out_of_range(number))?;
            self.no_sense(tag + 2)?;
        }
        Ok("F0 and the first block outside, of Read, Write and Verify".into())
    }

    /// Another failure takes the number away. A Request Sense that fails is one.
    pub fn information_other_senses(&self) -> Outcome {
        let cases: [(&[u8], u8); 3] = [
            (&[0xC0, 0, 0, 0, 0, 0], INVALID_CODE),
            (&[0x00, 0, 0, 0, 0, 0x01], INVALID_FIELD),
            (&[0x03, 0x01, 0, 0, SENSE as u8, 0], INVALID_FIELD),
        ];
        for (n, (block, code)) in (0..).zip(cases) {
            let tag = 0x420 + 3 * n;
            self.range_failure(tag)?;
            self.ends(tag + 1, block, 1)?;
            self.request_sense(tag + 2, SENSE as u8, &other(5, code))?;
        }
        Ok("70 and zeros with 05/20/00 and 05/24/00".into())
    }

    /// The next command that passes takes the number away, whatever it is.
    pub fn information_after_passed(&self) -> Outcome {
        let cases: [&[u8]; 5] = [
            &TEST_UNIT_READY,
            &[0x1E, 0, 0, 0, 0, 0],
            &verify_10(120, 8),
            &read_10(BLOCKS, 0),
            &[0x12, 0, 0, 0, 0, 0],
        ];
        for (n, block) in (0..).zip(cases) {
            let tag = 0x810 + 3 * n;
            self.range_failure(tag)?;
            self.ends(tag + 1, block, 0)?;
            self.no_sense(tag + 2)?;
        }
        self.range_failure(0x820)?;
        equal("block 9", &passes("a read", read_block(&self.device, 0, 0x821, 9))?, self.block(9))?;
        self.no_sense(0x822)?;
        Ok("70 and zeros after five commands without data and a Read".into())
    }

    /// Cut at every length, to 0 bytes too, it is what the whole begins with. The sense is gone with it.
    pub fn information_cut(&self) -> Outcome {
        for most in (0..=19).chain([255]) {
            let tag = 0x440 + 3 * u32::from(most);
            self.range_failure(tag)?;
            self.request_sense(tag + 1, most, &out_of_range(BLOCKS)[..SENSE.min(most.into())])?;
            self.no_sense(tag + 2)?;
        }
        Ok("0 to 18 bytes, and then 70 and zeros".into())
    }

    /// A host that announced a block clears the halt, and asks for this and that: nothing of it is a command or a drop.
    pub fn information_stays(&self) -> Outcome {
        passes("a wrapper", self.device.bulk_out(&cbw(0x800, 512, true, 0, &read_10(120, 10)), None))?;
        ends_with("the pipe", EPIPE, self.device.bulk_in(512, None))?;
        passes("Clear Feature", self.device.clear_halt(0x81))?;
        equal("status", &passes("status", self.device.bulk_in(13, None))?, &csw(0x800, 512, 1))?;
        passes("Get Max LUN", self.device.control(0xA1, 0xFE, 0, 0, 1))?;
        passes("Get Status", self.device.control(0x82, 0, 0, 0x81, 2))?;
        passes("Clear Feature", self.device.clear_halt(0x02))?;
        ends_with("Get Max LUN of 2 bytes", EPIPE, self.device.control(0xA1, 0xFE, 0, 0, 2))?;
        self.request_sense(0x801, SENSE as u8, &out_of_range(BLOCKS))?;
        Ok("kept until it is asked for".into())
    }

    /// A phase error at the wrapper keeps the sense, but no host sees it: the lock that comes with it ends with a drop.
    fn phase_error(&self) -> Step {
        self.ends(0x831, &read_10(0, 1), 2)?;
        passes("reset recovery", recover(&self.device))
    }

    /// So does a broken wrapper.
    fn broken_wrapper(&self) -> Step {
        ends_with("a broken wrapper", EPIPE, self.device.bulk_out(&[0; 31], None))?;
        passes("reset recovery", recover(&self.device))
    }

    /// Each drop of the command takes it away.
    pub fn information_after_drops(&self) -> Outcome {
        for (n, dropped) in (0..).zip(DROPS) {
            let tag = 0x840 + 2 * n;
            self.range_failure(tag)?;
            dropped(self)?;
            self.no_sense(tag + 1)?;
        }
        passes("Test Unit Ready after them", test_unit_ready(&self.device, 0x850))?;
        Ok("70 and zeros after Mass Storage Reset, Set Configuration, two locks and a port reset".into())
    }
}
