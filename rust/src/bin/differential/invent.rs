//! Records and tables that were made up, near the bounds of what fits together.

use crate::inquiry::PAGES;
use crate::own::{Own, LIMIT};
use crate::random::Random;
use crate::state::State;
use crate::switch::{CLOSED, OPEN};
use crate::tables::{self, information, sense};
use ordinary::device::{BLOCK, MAX_NUMBER, PACKET};
use ordinary::record::{flag, stage, Record};

/// A reply's sense is below this.
const SENSE_BOUND: u32 = 1 << 24;

/// With the own table's sizes, mostly; a large medium can be lent with other sizes too.
pub fn invent(random: &mut Random, own: &Own) -> State {
    let mut units = own.units();
    let mut record = Record { flags: flags(random), ..Record::ZERO };
    if record.configured() || random.one_in(4) {
        tables::used(random, &mut units);
    }
    if random.one_in(2) {
        tables::fill_reserved(random, &mut units);
    }
    if random.one_in(if own.is_large() { 2 } else { 3 }) {
        units = tables::changed(random, &units);
    }
    record.number = random.pick(&[0, 42, MAX_NUMBER, MAX_NUMBER - 1, MAX_NUMBER]);
    record.address = random.below(0x80) as u8;
    record.unit = unit(random, units.len());
    if random.one_in(2) {
        random.fill(&mut record.part);
    }
    // Now and then the first stage that there is not.
    record.stage = random.below(stage::COUNT as u64 + 1) as u8;
    let blocks = units.get(usize::from(record.unit)).map_or(1, |unit| unit.blocks);
    if record.stage != stage::READY || random.one_in(8) {
        set_command(random, &mut record, blocks);
    }
    State { record, units }
}

/// A unit of the table, or now and then one beyond it.
fn unit(random: &mut Random, count: usize) -> u8 {
    let count = count.min(0xFF) as u64;
    match random.below(8) {
        0 => random.pick(&[count as u8, 4, 0x80, 0xFF]),
        _ => random.below(count.max(1)) as u8,
    }
}

fn flags(random: &mut Random) -> u8 {
    let mut flags = if random.one_in(12) { 0 } else { flag::CONFIGURED };
    for halt in [flag::HALT_IN, flag::HALT_OUT] {
        flags |= if random.one_in(4) { halt } else { 0 };
    }
    if random.one_in(6) {
        flags |= flag::LOCKED | flag::HALT_IN | flag::HALT_OUT;
        flags &= !if random.one_in(6) { flag::HALT_OUT } else { 0 };
    }
    flags
}

fn set_command(random: &mut Random, record: &mut Record, blocks: u32) {
    let size = match record.stage {
        stage::DATA_OUT => blocks,
        // Over the limit no table fits, whatever the place: the product only must not overflow.
        stage::DATA_IN => blocks.saturating_mul(BLOCK as u32),
        stage::REQUEST_SENSE => 18,
        stage::INQUIRY => 36,
        stage::MODE_SENSE => 4,
        stage::READ_CAPACITY => 8,
        stage::PRODUCT_PAGE.. => set_page(random, record),
        _ => 0,
    };
    record.tag = random.number() as u32;
    if size > 0 {
        let most = if random.one_in(2) { size.min(4 * PACKET as u32) } else { size };
        let room = random.below(u64::from(most) + 1) as u32;
        let some = random.below(u64::from(room) + 1) as u32;
        record.place = size - room;
        record.left = random.pick(&[0, 1, room, room, room, room.saturating_add(1), some]);
        if random.one_in(8) {
            // Past the end with nothing left, and a sum that does not fit in 32 bits.
            let past = (size.saturating_add(1), 0);
            (record.place, record.left) = random.pick(&[past, (u32::MAX, some.saturating_add(1))]);
        }
    }
    match record.stage {
        stage::DATA_OUT => record.value = 64 * random.below(9) as u32 + u32::from(random.one_in(12)),
        stage::MODE_SENSE => record.value = found(random),
        stage::READ_CAPACITY => record.value = random.pick(&[0, 1, blocks, LIMIT, u32::MAX]),
        stage::REQUEST_SENSE => {
            let [key, asc, ascq] = sense(random);
            let sense = u32::from_le_bytes([key, asc, ascq, 0]);
            record.value =
                random.pick(&[sense, sense, sense, sense, 0, SENSE_BOUND - 1, SENSE_BOUND | sense]);
        }
        _ => {}
    }
    // Only a reply's sense has a number.
    if record.stage == stage::REQUEST_SENSE || random.one_in(12) {
        record.extra = information(random, blocks);
    }
    let scale = if record.stage == stage::DATA_OUT { BLOCK as u32 } else { 1 };
    let due = record.left.wrapping_mul(scale);
    record.residue = due.wrapping_add(excess(random));
    record.announced = record.residue.wrapping_add(excess(random));
}

/// The position that Mode Sense found, or a value near one (document 02, A4).
fn found(random: &mut Random) -> u32 {
    match random.below(5) {
        0 => random.pick(&[0, CLOSED.into()]) | 1 << (1 + random.below(31)),
        1 => random.pick(&[2, 3, 0x100, 0x101, 0x8000_0000, 0x8000_0001, u32::MAX]),
        _ => random.pick(&[OPEN, CLOSED]).into(),
    }
}

/// Sets a product page's code, or a value near one (document 02, A2); gives back a page's size, mostly its own.
fn set_page(random: &mut Random, record: &mut Record) -> u32 {
    let (code, size) = random.pick(&PAGES);
    let code = u32::from(code);
    record.value = match random.below(8) {
        0 => code ^ 1 << random.below(32),
        1 => random.pick(&[0x01, 0x82, 0x100, 0x180, 0x8000_0000, 0x8000_0083, u32::MAX]),
        _ => code,
    };
    size.into()
}

/// What a number is over its bound; the largest wraps it to just below.
fn excess(random: &mut Random) -> u32 {
    let some = random.below(4096) as u32;
    random.pick(&[0, 0, 1, 512, u32::MAX, some])
}
