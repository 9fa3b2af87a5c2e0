//! The tally of arrived blocks (§ Words of demand 3), which is fed only the making, the events and their answers. It has
//! no device: it knows a unit's size from the making and its switch from the last acked switch event.

use crate::device::{BLOCK, PACKET};
use crate::scsi::code;
use crate::switch::Switch;
use crate::wrapper::Cbw;

struct Unit {
    blocks: u32,
    switch: Switch,
}

/// A Write under way: blocks still to arrive, and the bytes held of the next.
struct Write {
    left: u32,
    held: usize,
}

/// What an acked bulk-out packet was.
#[derive(Clone, Copy, Debug, PartialEq, Eq)]
pub enum Arrived {
    /// It came with no Write under way.
    Wrapper,
    /// A Write's data that completes no block.
    Data,
    /// The data that completes a block.
    Block,
}

pub struct Tally {
    units: Vec<Unit>,
    write: Option<Write>,
}

impl Tally {
    /// At first no Write is under way, and every switch is open.
    pub fn new(sizes: &[u32]) -> Tally {
        let units = sizes.iter().map(|blocks| Unit { blocks: *blocks, switch: Switch::Open });
        Tally { units: units.collect(), write: None }
    }

    pub fn units(&self) -> usize {
        self.units.len()
    }

    /// A switch event was acked. It does not touch a Write under way.
    pub fn set_switch(&mut self, position: u8, unit: u8) {
        if let (Some(unit), Some(switch)) =
            (self.units.get_mut(usize::from(unit)), Switch::from_position(position))
        {
            unit.switch = switch;
        }
    }

    /// The command was dropped; held bytes go with it.
    pub fn drop_write(&mut self) {
        self.write = None;
    }

    /// A bulk-out packet was acked.
    pub fn take(&mut self, packet: &[u8]) -> Arrived {
        let Some(write) = &mut self.write else {
            self.write = self.begins(packet);
            return Arrived::Wrapper;
        };
        if packet.len() != PACKET {
            self.write = None;
            return Arrived::Data;
        }
        write.held += PACKET;
        if write.held < BLOCK {
            return Arrived::Data;
        }
        write.held = 0;
        write.left -= 1;
        if write.left == 0 {
            self.write = None;
        }
        Arrived::Block
    }

    /// A Write that passes its checks, count over 0, announcing out at least 512 bytes a block. The checks are read from
    /// the papers here once more, so that a device that decides otherwise is shown.
    fn begins(&self, packet: &[u8]) -> Option<Write> {
        let cbw = Cbw::accept(packet, self.units.len())?;
        let unit = &self.units[usize::from(cbw.unit)];
        let [operation, byte_1, a, b, c, d, _, high, low, control, ..] = *cbw.block;
        let (address, count) = (u32::from_be_bytes([a, b, c, d]), u32::from(u16::from_be_bytes([high, low])));
        let passes = operation == code::WRITE
            && byte_1 & 0xE0 == 0
            && control & 0x07 == 0
            && u64::from(address) + u64::from(count) <= u64::from(unit.blocks)
            && unit.switch == Switch::Open;
        let announced = !cbw.data_in && cbw.announced >= count * BLOCK as u32;
        (passes && announced && count > 0).then_some(Write { left: count, held: 0 })
    }
}
