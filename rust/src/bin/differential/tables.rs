//! Tables of units other than the trial's own: some fit, some break one rule of number 10 (document 02, A7).

use crate::own::LIMIT;
use crate::random::Random;
use crate::switch::{no_position, CLOSED, OPEN};
use ordinary::unit::Unit;

/// A change of a table.
type Change = fn(&mut Random, &mut Vec<Unit>);

const CHANGES: [Change; 11] = [
    count,
    size,
    size,
    part,
    part,
    shift,
    swap,
    |random, units| some(random, units).write_switch = no_position(random),
    |random, units| {
        let unit = some_index(random, units);
        set_sense(random, unit, units);
    },
    used,
    other_parts,
];

/// A table with one change, or now and then two.
pub fn changed(random: &mut Random, own: &[Unit]) -> Vec<Unit> {
    let mut units = own.to_vec();
    for _ in 0..=u8::from(random.one_in(6)) {
        if !units.is_empty() {
            random.pick(&CHANGES)(random, &mut units);
        }
    }
    units
}

/// Senses and switches are anything that a configured device may have.
pub fn used(random: &mut Random, units: &mut Vec<Unit>) {
    for at in 0..units.len() {
        if random.one_in(2) {
            set_sense(random, at, units);
        }
        units[at].write_switch = random.pick(&[OPEN, CLOSED]);
    }
}

/// Senses, switches and reserved bytes are anything at all: a making does not look at them.
pub fn spoil(random: &mut Random, units: &mut Vec<Unit>) {
    used(random, units);
    for unit in units.iter_mut() {
        unit.write_switch = if random.one_in(4) { no_position(random) } else { unit.write_switch };
    }
    fill_reserved(random, units);
}

/// Reserved bytes have no meaning.
pub fn fill_reserved(random: &mut Random, units: &mut [Unit]) {
    for unit in units {
        unit.reserved0 = random.number() as u8;
        random.fill(&mut unit.reserved1);
    }
}

fn some_index(random: &mut Random, units: &[Unit]) -> usize {
    random.below(units.len() as u64) as usize
}

fn some<'a>(random: &mut Random, units: &'a mut [Unit]) -> &'a mut Unit {
    let at = some_index(random, units);
    &mut units[at]
}

/// No unit, one fewer, four and one more, and many more; all follow on.
fn count(random: &mut Random, units: &mut Vec<Unit>) {
    let last = units[units.len() - 1];
    match random.below(5) {
        0 => units.clear(),
        1 => units.truncate(units.len() - 1),
        at => {
            let count = if at == 2 { 6 + random.below(255) } else { 5 };
            let mut first = last.first.wrapping_add(last.blocks);
            while (units.len() as u64) < count {
                units.push(Unit::new(first, last.blocks));
                first = first.wrapping_add(last.blocks);
            }
        }
    }
}

/// Another size of a unit, and often the parts behind it moved so that they still follow on.
fn size(random: &mut Random, units: &mut Vec<Unit>) {
    let at = some_index(random, units);
    let any = random.number() as u32;
    units[at].blocks = match random.below(8) {
        0 | 1 => 0,
        2 | 3 => LIMIT + 1,
        4 => LIMIT,
        5 => random.pick(&[LIMIT + 2, 2 * LIMIT, 1 << 23, 1 << 31, u32::MAX, any]),
        6 => units[at].blocks.wrapping_add(1),
        _ => 1 + random.below(8) as u32,
    };
    if !random.one_in(4) {
        follow(units);
    }
}

fn follow(units: &mut [Unit]) {
    let mut first = 0_u32;
    for unit in units {
        unit.first = first;
        first = first.wrapping_add(unit.blocks);
    }
}

/// A part that does not follow on, by little or by much.
fn part(random: &mut Random, units: &mut Vec<Unit>) {
    let unit = some(random, units);
    let any = random.number() as u32;
    unit.first = match random.below(5) {
        0 => unit.first.wrapping_add(1),
        1 => unit.first.wrapping_sub(1),
        2 => 0,
        3 => unit.first ^ 1 << random.below(32),
        _ => random.pick(&[unit.blocks, u32::MAX, any]),
    };
}

/// All parts follow on, but not from block 0.
fn shift(random: &mut Random, units: &mut Vec<Unit>) {
    let by = random.pick(&[1, 2, LIMIT, 1 << 31, u32::MAX]);
    units.iter_mut().for_each(|unit| unit.first = unit.first.wrapping_add(by));
}

/// Two units in each other's place, with their parts.
fn swap(random: &mut Random, units: &mut Vec<Unit>) {
    let (a, b) = (some_index(random, units), some_index(random, units));
    units.swap(a, b);
}

/// The same blocks in other parts: a unit parted in two, or two made one.
fn other_parts(random: &mut Random, units: &mut Vec<Unit>) {
    let at = some_index(random, units);
    if units.len() > 1 && random.one_in(2) {
        let gone = units.remove(at);
        let next = at.min(units.len() - 1);
        units[next].blocks = units[next].blocks.wrapping_add(gone.blocks);
    } else if units[at].blocks > 1 {
        let part = 1 + random.below(u64::from(units[at].blocks) - 1) as u32;
        units[at].blocks -= part;
        units.insert(at + 1, Unit::new(0, part));
    }
    follow(units);
}

/// A unit's sense and its number (document 02, A8): each alone, or both.
pub fn set_sense(random: &mut Random, at: usize, units: &mut [Unit]) {
    let unit = &mut units[at];
    let part = random.below(5);
    if part != 0 {
        [unit.sense_key, unit.sense_asc, unit.sense_ascq] = sense(random);
    }
    if part != 1 {
        unit.sense_information = information(random, unit.blocks);
    }
}

/// Any, or 05/21/00, or one byte off by one from that, or one byte alone.
pub fn sense(random: &mut Random) -> [u8; 3] {
    let mut sense = [0x05, 0x21, 0x00];
    match random.below(6) {
        0 => random.fill(&mut sense),
        1 => {}
        2 => {
            sense = [0; 3];
            sense[random.below(3) as usize] = 1 << random.below(8);
        }
        _ => {
            let byte = &mut sense[random.below(3) as usize];
            *byte = byte.wrapping_add(random.pick(&[1, 0xFF]));
        }
    }
    sense
}

/// A sense's number: the unit's end, and any.
pub fn information(random: &mut Random, blocks: u32) -> u32 {
    let any = random.number() as u32;
    random.pick(&[0, 1, blocks, blocks.saturating_add(1), u32::MAX, any, any])
}
