//! The write switch (document 02, A4) in the middle of commands, and under the resets that Linux's driver does not do.
//! A command keeps what it found at its wrapper, and nothing on the bus moves the switch. The medium has 128 blocks.

use crate::bot::{cbw, csw, mass_storage_reset, read_10, recover, write_10, BLOCK};
use crate::information::{other, out_of_range, Step, BLOCKS, DROPS, SENSE};
use crate::usbfs::EPIPE;
use crate::{ends_with, equal, passes, Outcome, Probe};
use std::fs::File;
use std::io::{Error, Read, Result, Write};

/// The guest's line to the depot (guest/dialogue.sh), which has the peer turn the switch.
const DIALOGUE: &str = "/dev/ttyS1";

/// Mode Sense's bytes.
pub const OPEN: [u8; 4] = [0x03, 0, 0x00, 0];
pub const CLOSED: [u8; 4] = [0x03, 0, 0x80, 0];

/// The blocks that the probe's Writes go to, if they go: the data behind block 5's.
const PLACE: u32 = 20;
const TWO: usize = 2 * BLOCK;

fn ask(order: &str) -> Result<()> {
    let mut line = File::options().read(true).write(true).open(DIALOGUE)?;
    line.write_all(format!("ask {order}\n").as_bytes())?;
    let answer: Vec<u8> =
        line.bytes().take_while(|byte| !matches!(byte, Ok(b'\n'))).collect::<Result<_>>()?;
    if answer == b"done" {
        return Ok(());
    }
    Err(Error::other(format!("the depot said {}", String::from_utf8_lossy(&answer))))
}

pub fn turn_of(unit: u8, position: &str) -> Step {
    passes("the switch", ask(&format!("switch {position} {unit}")))
}

fn turn(position: &str) -> Step {
    turn_of(0, position)
}

impl Probe {
    fn two_blocks(&self) -> &[u8] {
        &self.data[BLOCK..BLOCK + TWO]
    }

    pub fn begins(&self, wrapper: &[u8]) -> Step {
        passes("a wrapper", self.device.bulk_out(wrapper, None)).map(|_| ())
    }

    pub fn ends_as(&self, tag: u32, residue: u32, status: u8) -> Step {
        equal("status", &passes("status", self.device.bulk_in(13, None))?, &csw(tag, residue, status))
    }

    fn mode_sense_begins(&self, tag: u32) -> Step {
        self.begins(&cbw(tag, 4, true, 0, &[0x1A, 0, 0x3F, 0, 4, 0]))
    }

    pub fn mode_sense_ends(&self, tag: u32, expected: &[u8]) -> Step {
        equal("Mode Sense", &passes("data", self.device.bulk_in(4, None))?, expected)?;
        self.ends_as(tag, 0, 0)
    }

    fn shows(&self, tag: u32, expected: &[u8]) -> Step {
        self.mode_sense_begins(tag)?;
        self.mode_sense_ends(tag, expected)
    }

    fn write_begins(&self, tag: u32) -> Step {
        self.begins(&cbw(tag, TWO as u32, false, 0, &write_10(PLACE, 2)))
    }

    /// A Write that found the switch closed: no data goes, and the sense says why, once.
    fn write_fails(&self, tag: u32) -> Step {
        ends_with("a refused Write's data", EPIPE, self.device.bulk_out(self.two_blocks(), None))?;
        passes("Clear Feature", self.device.clear_halt(0x02))?;
        self.ends_as(tag, TWO as u32, 1)?;
        self.request_sense(tag + 1, SENSE as u8, &other(7, 0x27))?;
        self.no_sense(tag + 2)
    }

    fn refuses_write(&self, tag: u32) -> Step {
        self.write_begins(tag)?;
        self.write_fails(tag)
    }

    fn reads_two(&self, tag: u32, block: u32, expected: &[u8]) -> Step {
        self.begins(&cbw(tag, TWO as u32, true, 0, &read_10(block, 2)))?;
        equal("two blocks", &passes("data", self.device.bulk_in(TWO as u32, None))?, expected)?;
        self.ends_as(tag, 0, 0)
    }

    /// Its bytes are those of the position at the wrapper, also where they are sent later.
    pub fn switch_in_mode_sense(&self) -> Outcome {
        turn("closed")?;
        self.shows(0x900, &CLOSED)?;
        self.mode_sense_begins(0x901)?;
        turn("open")?;
        self.mode_sense_ends(0x901, &CLOSED)?;
        self.shows(0x902, &OPEN)?;
        self.mode_sense_begins(0x903)?;
        turn("closed")?;
        self.mode_sense_ends(0x903, &OPEN)?;
        self.shows(0x904, &CLOSED)?;
        Ok("80 closed, 00 open, as found at the wrapper".into())
    }

    /// Opened behind the wrapper, it fails all the same.
    pub fn switch_in_refused_write(&self) -> Outcome {
        turn("closed")?;
        self.refuses_write(0x910)?;
        self.write_begins(0x913)?;
        turn("open")?;
        self.write_fails(0x913)?;
        let before = &self.before[PLACE as usize * BLOCK..][..TWO];
        self.reads_two(0x916, PLACE, before)?;
        Ok("07/27/00 and residue 1024, nothing stored".into())
    }

    /// Closed after nine packets of sixteen, it arrives whole; the next one fails.
    pub fn switch_in_write(&self) -> Outcome {
        turn("open")?;
        let (first, rest) = self.two_blocks().split_at(9 * 64);
        self.write_begins(0x920)?;
        passes("9 packets", self.device.bulk_out(first, None))?;
        turn("closed")?;
        passes("7 packets more", self.device.bulk_out(rest, None))?;
        self.ends_as(0x920, 0, 0)?;
        self.reads_two(0x921, PLACE, self.two_blocks())?;
        self.refuses_write(0x922)?;
        Ok("two blocks stored, the next Write fails".into())
    }

    /// No command, sense or lock ends with it.
    pub fn switch_drops_nothing(&self) -> Outcome {
        self.begins(&cbw(0x930, TWO as u32, true, 0, &read_10(8, 2)))?;
        equal("block 8", &passes("data", self.device.bulk_in(BLOCK as u32, None))?, self.block(8))?;
        turn("open")?;
        equal("block 9", &passes("data", self.device.bulk_in(BLOCK as u32, None))?, self.block(9))?;
        self.ends_as(0x930, 0, 0)?;
        self.range_failure(0x931)?;
        turn("closed")?;
        self.request_sense(0x932, SENSE as u8, &out_of_range(BLOCKS))?;
        ends_with("a broken wrapper", EPIPE, self.device.bulk_out(&[0; 31], None))?;
        turn("open")?;
        ends_with("bulk-in", EPIPE, self.device.bulk_in(13, None))?;
        passes("reset recovery", recover(&self.device))?;
        self.shows(0x933, &OPEN)?;
        Ok("a Read, a sense and the lock are as before".into())
    }

    /// In either position, whatever drops the command: a Write that is under way too.
    pub fn switch_and_resets(&self) -> Outcome {
        turn("closed")?;
        for (tag, dropped) in (0x940..).step_by(4).zip(DROPS) {
            dropped(self)?;
            self.shows(tag, &CLOSED)?;
            self.refuses_write(tag + 1)?;
        }
        turn("open")?;
        for (tag, dropped) in (0x960..).step_by(4).zip(DROPS) {
            dropped(self)?;
            self.shows(tag, &OPEN)?;
        }
        self.write_begins(0x980)?;
        turn("closed")?;
        passes("Mass Storage Reset", mass_storage_reset(&self.device))?;
        self.refuses_write(0x981)?;
        turn("open")?;
        Ok("Mass Storage Reset, Set Configuration, two locks and a port reset do not move it".into())
    }
}
