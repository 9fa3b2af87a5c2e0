//! What a run has met of blocks far out in a unit (document 02, A5): where a device with too few bits for a block
//! address, for its sum with a count, or for the bytes still due goes wrong.

use crate::coverage::{accept, decide, unit_of};
use crate::event::Event;
use crate::own::LIMIT;
use crate::pair::Played;
use crate::state::State;
use crate::table::Table;
use ordinary::device::{BLOCK, PACKET};
use ordinary::record::{stage, Record};
use ordinary::scsi::code;
use ordinary::unit::Unit;
use ordinary::wrapper::Cbw;

pub const OPERATIONS: [(u8, &str); 3] =
    [(code::READ, "Read"), (code::WRITE, "Write"), (code::VERIFY, "Verify")];
const READ: usize = 0;
const WRITE: usize = 1;
/// In a transfer of that many blocks the bytes still due need more than 24 bits. The last three are of the unit's place
/// in the medium.
const SERVED: [&str; 7] = [
    "from 4,096 on",
    "from 65,536 on",
    "last of 1,048,576",
    "32,768 or more due",
    "unit begins from 65,536 on",
    "past 1,048,576 in the medium",
    "past 2,097,152 in the medium",
];
/// A far address is well past the end, but within if only 20 bits of it are looked at.
const FAILED: [&str; 3] = ["one past the end", "sum over 32 bits", "far address"];

#[derive(Default)]
pub struct BlockPlaces {
    /// By operation and place of the block.
    served: [[u64; SERVED.len()]; OPERATIONS.len()],
    /// Range failures in the largest unit.
    failed: [[u64; FAILED.len()]; OPERATIONS.len()],
}

impl BlockPlaces {
    /// Notes an event that was played on a device that was in the state of `before`.
    pub fn note(&mut self, before: &State, event: &Event, played: &Played) {
        let Record { place, left, .. } = before.record;
        let Some(unit) = before.own_unit() else { return };
        match (event, played.answer.number, before.stage) {
            (event, 0, stage::DATA_IN) if event.asks() => {
                self.note_served(READ, unit, place / BLOCK as u32, left / BLOCK as u32);
            }
            (Event::BulkOut { packet, .. }, 1, stage::DATA_OUT) if completes(before, packet) => {
                self.note_served(WRITE, unit, place, left);
            }
            (Event::BulkOut { packet, .. }, 1, stage::READY) => {
                let cbw = accept(before, packet);
                cbw.iter().for_each(|cbw| self.note_wrapper(before, cbw));
            }
            _ => {}
        }
    }

    fn note_wrapper(&mut self, before: &State, cbw: &Cbw) {
        let (block, unit) = (cbw.block, unit_of(before, cbw));
        let blocks = unit.blocks;
        let Some(operation) = OPERATIONS.iter().position(|(code, _)| *code == block[0]) else { return };
        let (address, count) = range(block);
        let end = u64::from(address) + u64::from(count);
        match decide(before, cbw) {
            Ok(_) if block[0] == code::VERIFY && count > 0 => {
                self.note_served(operation, unit, end as u32 - 1, count.into());
            }
            Err(sense) if sense.is_out_of_range() && blocks == LIMIT && count > 0 => {
                let cut = u64::from(address % LIMIT) + u64::from(count);
                let failed = &mut self.failed[operation];
                failed[0] += u64::from(end == u64::from(blocks) + 1);
                failed[1] += u64::from(end > u64::from(u32::MAX));
                failed[2] += u64::from(address > blocks && cut <= u64::from(blocks));
            }
            _ => {}
        }
    }

    fn note_served(&mut self, operation: usize, unit: &Unit, block: u32, due: u32) {
        let served = &mut self.served[operation];
        served[0] += u64::from(block >= 4096);
        served[1] += u64::from(block >= 65_536);
        served[2] += u64::from(unit.blocks == LIMIT && block == LIMIT - 1);
        served[3] += u64::from(due >= 32_768);
        served[4] += u64::from(unit.first >= 65_536);
        served[5] += u64::from(unit.first + block >= LIMIT);
        served[6] += u64::from(unit.first + block >= 2 * LIMIT);
    }

    fn tables(&self) -> [Table<'_>; 2] {
        let names = OPERATIONS.map(|(operation, name)| format!("{operation:02X} {name}"));
        let served = names.iter().zip(self.served.iter().map(|counts| &counts[..]));
        let failed = names.iter().zip(self.failed.iter().map(|counts| &counts[..]));
        [
            Table::new("packets read, blocks stored and verifies passed, by block", SERVED, served),
            Table::new("range failures in 1,048,576 blocks", FAILED, failed),
        ]
    }

    pub fn print(&self) {
        self.tables().iter().for_each(Table::print);
    }

    /// What is owed of a run and did not occur.
    pub fn missing(&self) -> Vec<String> {
        self.tables().iter().flat_map(Table::missing).collect()
    }
}

/// Block address and count.
pub fn range(block: &[u8; 16]) -> (u32, u16) {
    let address = u32::from_be_bytes([block[2], block[3], block[4], block[5]]);
    (address, u16::from_be_bytes([block[7], block[8]]))
}

/// Whether a packet of data completes the part block.
pub fn completes(before: &Record, packet: &[u8]) -> bool {
    packet.len() == PACKET && before.value as usize + PACKET == BLOCK
}
