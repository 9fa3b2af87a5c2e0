//! Each command of the table once, as it passes.

use crate::bench::{block10, Bench};
use ordinary::device::Answer;

/// A command that passes, and the data that it moves.
#[derive(Clone)]
pub struct Command {
    pub announced: u32,
    pub data_in: bool,
    pub block: Vec<u8>,
}

impl Command {
    pub fn new(announced: u32, data_in: bool, block: &[u8]) -> Command {
        Command { announced, data_in, block: block.to_vec() }
    }

    /// Bits are set in the block's last byte.
    pub fn with_control(&self, bits: u8) -> Command {
        let mut command = self.clone();
        *command.block.last_mut().unwrap() |= bits;
        command
    }

    /// The block is made 16 bytes long; `byte` stands in each one that is added.
    pub fn lengthened(&self, byte: u8) -> Command {
        let mut command = self.clone();
        command.block.resize(16, byte);
        command
    }

    pub fn begin(&self, bench: &mut Bench) {
        bench.command(self.announced, self.data_in, &self.block);
    }

    /// Moves the data of a command that was begun, takes its status, which must be passed, and gives back what came in.
    pub fn pass(&self, bench: &mut Bench) -> Vec<u8> {
        let mut received = vec![];
        for _ in 0..self.announced.div_ceil(64) {
            if self.data_in {
                received.extend(bench.ask().unwrap());
            } else {
                assert_eq!(bench.send(&[0xAB; 64]), Answer::Ack);
            }
        }
        assert_eq!(bench.status(), (0, 0), "{:02X?}", self.block);
        received
    }
}

/// One of each code of the table. Address and count are `address` and 1 block where the code has them.
pub fn nine(address: u32) -> [Command; 9] {
    [
        Command::new(0, false, &[0x00, 0, 0, 0, 0, 0]),
        Command::new(18, true, &[0x03, 0, 0, 0, 18, 0]),
        Command::new(36, true, &[0x12, 0, 0, 0, 36, 0]),
        Command::new(4, true, &[0x1A, 0, 0x3F, 0, 4, 0]),
        Command::new(0, false, &[0x1E, 0, 0, 0, 0, 0]),
        Command::new(8, true, &block10(0x25, address, 0)),
        Command::new(512, true, &block10(0x28, address, 1)),
        Command::new(512, false, &block10(0x2A, address, 1)),
        Command::new(0, false, &block10(0x2F, address, 1)),
    ]
}
