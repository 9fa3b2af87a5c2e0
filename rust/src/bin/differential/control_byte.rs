//! What a run has met of the control byte (document 02, A12): the commands that it alone failed, and those that passed
//! although bits were set that have no meaning.

use crate::coverage::COMMANDS;
use ordinary::scsi::{self, REFUSED_CONTROL_BITS};

const COLUMNS: [&str; 3] = ["refused for it alone", "passed, bits 3 to 7", "passed, bytes past"];
const BITS: [&str; 3] = ["bit 0 (LINK)", "bit 1", "bit 2 (NACA)"];

#[derive(Default)]
pub struct ControlBytes {
    /// By command of the table and column.
    commands: [[u64; COLUMNS.len()]; COMMANDS.len()],
    /// Of the refused: how often each bit was the only one of the three.
    lone: [u64; BITS.len()],
}

/// The block with the refused bits cleared.
pub fn cleared(block: &[u8; 16]) -> [u8; 16] {
    let mut block = *block;
    if let Some(place) = scsi::control_place(block[0]) {
        block[place] &= !REFUSED_CONTROL_BITS;
    }
    block
}

impl ControlBytes {
    /// Notes a block of the table's command `index` that failed and, with the refused bits cleared, would have passed.
    pub fn note_refused(&mut self, index: usize, block: &[u8; 16]) {
        self.commands[index][0] += 1;
        let bits = control(block) & REFUSED_CONTROL_BITS;
        if bits.is_power_of_two() {
            self.lone[bits.trailing_zeros() as usize] += 1;
        }
    }

    /// Notes a block of the table's command `index` that passed.
    pub fn note_passed(&mut self, index: usize, block: &[u8; 16]) {
        let past = &block[scsi::block_length(block[0]).into()..];
        self.commands[index][1] += u64::from(control(block) != 0);
        self.commands[index][2] += u64::from(past.iter().any(|byte| byte & REFUSED_CONTROL_BITS != 0));
    }

    pub fn print(&self) {
        println!(
            "\naccepted wrappers by control byte (bytes past: bits 0 to 2 set past the code's own length)"
        );
        let header: String = COLUMNS.iter().map(|name| format!("{name:>22}")).collect();
        println!("  {:<21}{header}", "");
        for ((operation, name), counts) in COMMANDS.iter().zip(&self.commands) {
            let row: String = counts.iter().map(|count| format!("{count:>22}")).collect();
            println!("  {operation:02X} {name:<18}{row}");
        }
        println!("  refused with one of the three bits only");
        for (name, count) in BITS.iter().zip(&self.lone) {
            println!("     {name:<18}{count:>22}");
        }
    }

    /// What is owed of a run and did not occur.
    pub fn missing(&self) -> Vec<String> {
        let mut missing = vec![];
        for ((operation, name), counts) in COMMANDS.iter().zip(&self.commands) {
            let absent = COLUMNS.iter().zip(counts).filter(|(_, count)| **count == 0);
            missing
                .extend(absent.map(|(column, _)| format!("{operation:02X} {name}, control byte: {column}")));
        }
        let absent = BITS.iter().zip(&self.lone).filter(|(_, count)| **count == 0);
        missing.extend(absent.map(|(name, _)| format!("control byte refused for {name} only")));
        missing
    }
}

fn control(block: &[u8; 16]) -> u8 {
    scsi::control_place(block[0]).map_or(0, |place| block[place])
}
