//! The ledger (document 02, A13): a command cut by a drop has no status.

use crate::bot::{cbw, read_10, test_unit_ready, BLOCK, TEST_UNIT_READY};
use crate::information::{Step, RESETS};
use crate::usbfs::ETIMEDOUT;
use crate::{ends_with, equal, passes, Outcome, Probe, SHORT};

impl Probe {
    /// Nothing is handed out, and the next command has its own status.
    fn nothing_due(&self, tag: u32) -> Step {
        ends_with("an ask after the drop", ETIMEDOUT, self.device.bulk_in(13, SHORT))?;
        passes("Test Unit Ready after it", test_unit_ready(&self.device, tag))
    }

    /// Each reset comes after the first of two blocks, and again with a status due.
    pub fn no_status_after_drops(&self) -> Outcome {
        for (n, reset) in (0..).zip(RESETS) {
            let tag = 0xD00 + 4 * n;
            self.begins(&cbw(tag, 2 * BLOCK as u32, true, 0, &read_10(8, 2)))?;
            equal(
                "the first block",
                &passes("data", self.device.bulk_in(BLOCK as u32, None))?,
                self.block(8),
            )?;
            reset(self)?;
            self.nothing_due(tag + 1)?;
            self.begins(&cbw(tag + 2, 0, false, 0, &TEST_UNIT_READY))?;
            reset(self)?;
            self.nothing_due(tag + 3)?;
        }
        Ok("none after Mass Storage Reset, Set Configuration and a port reset, in data and with a status due"
            .into())
    }
}
