//! Command wrappers as a host makes them: right ones, unfitting ones and damaged ones.

use crate::inquiry;
use crate::own::{Own, LIMIT, SMALL};
use crate::random::Random;
use crate::state::State;
use ordinary::device::BLOCK;
use ordinary::scsi::{self, code, Data, Sense, REFUSED_CONTROL_BITS};
use ordinary::switch::Switch;
use ordinary::wrapper::{CBW_SIGNATURE, CBW_SIZE};

const CODES: [u8; 16] = [
    code::TEST_UNIT_READY,
    code::REQUEST_SENSE,
    code::REQUEST_SENSE,
    code::INQUIRY,
    code::INQUIRY,
    code::INQUIRY,
    code::MODE_SENSE,
    code::PREVENT_ALLOW,
    code::READ_CAPACITY,
    code::READ,
    code::READ,
    code::READ,
    code::WRITE,
    code::WRITE,
    code::WRITE,
    code::VERIFY,
];

/// More often in a large medium.
const MEDIUM_CODES: [u8; 4] = [code::READ_CAPACITY, code::READ, code::WRITE, code::VERIFY];

/// A packet that is mostly an accepted wrapper. What it announces is what its command would move without the refused
/// bits of byte 1 and of the control byte, since a host that sets them expects that they are obeyed, and with the write
/// switch open, since a host may not know of it.
pub fn wrapper(random: &mut Random, state: &State, own: &Own) -> Vec<u8> {
    let unit = unit(random, state);
    let found = state.units.get(usize::from(unit));
    // A table that does not fit may tell of any number of blocks.
    let blocks = found.map_or(1, |unit| unit.blocks.min(LIMIT));
    let marked = own.marked_of(unit);
    let failed = found.is_some_and(|unit| !unit.sense().is_zero());
    let operation = operation(random, failed, marked);
    let mut block = command(random, operation, blocks, marked);
    let (announced, data_in) = announce(random, &block, blocks);
    if random.one_in(8) {
        refuse_control(random, &mut block);
    }
    if random.one_in(16) {
        refuse_byte_1(random, &mut block);
    }
    let need = scsi::block_length(block[0]);
    let length = match random.below(3) {
        0 => need + random.below(u64::from(17 - need)) as u8,
        1 => 16,
        _ => need,
    };
    let mut packet = Vec::with_capacity(64);
    packet.extend(CBW_SIGNATURE);
    packet.extend((random.number() as u32).to_le_bytes());
    packet.extend(announced.to_le_bytes());
    packet.extend([u8::from(data_in) << 7, unit, length]);
    packet.extend(block);
    if random.one_in(25) {
        damage(random, &mut packet, need);
    }
    packet
}

/// A unit of the table, now and then the first that there is not, or another.
fn unit(random: &mut Random, state: &State) -> u8 {
    let count = state.units.len().min(0xFF) as u64;
    match random.below(120) {
        0 => count as u8,
        1 => random.below(16) as u8,
        _ => random.below(count.max(1)) as u8,
    }
}

/// An operation code, now and then any. A host that has a failure often asks for its sense.
fn operation(random: &mut Random, failed: bool, marked: &[u32]) -> u8 {
    match random.below(20) {
        0 => random.number() as u8,
        1..=5 if failed => code::REQUEST_SENSE,
        6..=15 if !marked.is_empty() => random.pick(&MEDIUM_CODES),
        _ => random.pick(&CODES),
    }
}

/// A command block, mostly one that passes; bits and bytes that the device has to ignore are often set.
fn command(random: &mut Random, operation: u8, blocks: u32, marked: &[u32]) -> [u8; 16] {
    let mut block = [0; 16];
    if random.one_in(3) {
        random.fill(&mut block);
    }
    block[0] = operation;
    ignored(random, &mut block);
    match block[0] {
        code::READ | code::WRITE => block[1] &= 0x1F,
        code::VERIFY => block[1] &= 0x1D,
        code::PREVENT_ALLOW => block[4] &= 0xFE,
        code::MODE_SENSE => block[2] = 0x3F,
        code::INQUIRY => inquiry::set_fields(random, &mut block),
        _ => block[1] &= 0xFE,
    }
    match block[0] {
        code::READ | code::WRITE | code::VERIFY => place(random, &mut block, blocks, marked),
        code::REQUEST_SENSE | code::MODE_SENSE => {
            block[3] = if random.one_in(2) { random.number() as u8 } else { block[3] };
            block[4] = random.pick(&[0, 0, 1, 2, 3, 4, 5, 6, 7, 17, 18, 19, 36, 64, 192, 255, block[4]]);
        }
        _ => {}
    }
    if random.one_in(12) {
        let at = 1 + random.below(4) as usize;
        block[at] ^= 1 << random.pick(&[0, 0, 0, 1, 2, 3, 4, 5, 6, 7]);
    }
    block
}

/// Often sets the bytes past the code's own length, and bits 3 to 7 of the control byte. Its other bits are cleared.
fn ignored(random: &mut Random, block: &mut [u8; 16]) {
    if random.one_in(2) {
        let need = scsi::block_length(block[0]);
        random.fill(&mut block[need.into()..]);
    }
    if let Some(place) = scsi::control_place(block[0]) {
        let bits = if random.one_in(2) { random.number() as u8 } else { 0 };
        block[place] = bits & !REFUSED_CONTROL_BITS;
    }
}

/// Sets bits 0 to 2 of the control byte: each alone and together. An unknown code has no control byte.
fn refuse_control(random: &mut Random, block: &mut [u8; 16]) {
    if let Some(place) = scsi::control_place(block[0]) {
        block[place] |= random.pick(&[1, 2, 4, 3, 5, 6, 7]);
    }
}

/// Sets one of bits 5 to 7 of byte 1, where they are refused.
fn refuse_byte_1(random: &mut Random, block: &mut [u8; 16]) {
    if matches!(block[0], code::READ | code::WRITE | code::VERIFY) {
        block[1] |= 1 << random.pick(&[5, 6, 7]);
    }
}

/// Block address and count: mostly within the unit, often at its end or just past it. In a large one mostly at a
/// marked block.
fn place(random: &mut Random, block: &mut [u8; 16], blocks: u32, marked: &[u32]) {
    let count = count(random, block[0], blocks);
    let last = blocks.saturating_sub(count.into());
    let address = match random.below(13) {
        0 => random.number() as u32,
        1 | 2 => u32::MAX.wrapping_sub(random.below(u64::from(count) + 2) as u32),
        3 => random.pick(&[blocks, blocks, blocks + 1]),
        4 => last + 1,
        5 | 6 => last,
        7..=11 if !marked.is_empty() => random.pick(marked).min(last),
        _ => random.below(u64::from(last) + 1) as u32,
    };
    block[2..6].copy_from_slice(&address.to_be_bytes());
    block[7..9].copy_from_slice(&count.to_be_bytes());
}

/// A transfer of many blocks would fill the whole trial: in a large unit mostly Verify has a large count.
fn count(random: &mut Random, operation: u8, blocks: u32) -> u16 {
    let most = u16::try_from(blocks).unwrap_or(u16::MAX);
    let any = 1 + random.below(most.into()) as u16;
    if blocks > SMALL && operation != code::VERIFY {
        let few = random.pick(&[0, 1, 1, 1, 1, 2, 2, 3]);
        return if random.one_in(12) { random.pick(&[any, most]) } else { few };
    }
    match random.below(10) {
        0 => 0,
        1 => random.number() as u16,
        2 => most.saturating_add(random.below(2) as u16),
        3 => any,
        4 | 5 => 2,
        _ => 1,
    }
}

/// The announced length and direction: mostly those of the device's data.
fn announce(random: &mut Random, block: &[u8; 16], blocks: u32) -> (u32, bool) {
    let (length, data_in) = match scsi::decide(block, Sense::NONE, blocks, Switch::Open) {
        Ok(Data::Reply { length, .. }) => (length, true),
        Ok(Data::Read { count, .. }) => (count * BLOCK as u32, true),
        Ok(Data::Write { count, .. }) => (count * BLOCK as u32, false),
        Ok(Data::None) | Err(_) => (0, random.one_in(2)),
    };
    let announced = match random.below(16) {
        0 => 0,
        1 => length + 1 + random.below(600) as u32,
        2 => length + BLOCK as u32,
        3 => random.below(u64::from(length) + 1) as u32,
        4 => length.saturating_sub(1),
        5 => random.number() as u32,
        6 => random.pick(&[7, 16, 18, 28, 36, 64, 255, 256, 512, u32::MAX]),
        // As most hosts do: room for all that the command allows.
        7 | 8 => scsi::allocation_length(block).map_or(length, u32::from),
        _ => length,
    };
    (announced, data_in ^ random.one_in(20))
}

/// Makes a wrapper that is mostly not accepted.
fn damage(random: &mut Random, packet: &mut Vec<u8>, need: u8) {
    match random.below(8) {
        0 => packet.truncate(random.below(CBW_SIZE as u64) as usize),
        1 => packet.truncate(CBW_SIZE - 1),
        2 => packet.resize(CBW_SIZE + 1 + random.below(33) as usize, 0),
        3 => packet[random.below(4) as usize] ^= 1 << random.below(8),
        4 => packet[12] |= 1 << random.below(7),
        5 => packet[13] ^= 1 << random.below(8),
        6 => packet[14] = random.pick(&[0, need - 1, 17, 31, 32, 33, 48, 64, 128, 255]),
        _ => *packet = random.bytes(CBW_SIZE as u64),
    }
}
