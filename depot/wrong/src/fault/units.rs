//! Faults of several units (document 02, A7).

use super::{chosen, own, place, Fault, BLOCK, COMMAND, UNIT, WRAPPER};
use crate::capi::CAnswer;
use crate::device::PACKET;
use crate::record::{stage, Record};
use crate::scsi::{code, Sense};
use crate::unit::Unit;
use std::sync::atomic::{AtomicU8, Ordering};

const GIBIBYTE: usize = 1 << 30;

/// The unit of the last command that was accepted.
static LAST: AtomicU8 = AtomicU8::new(0);

/// Makes of a wrapper's unit what a device with the fault takes it for, of so many units.
pub fn misread(units: usize, unit: &mut u8) {
    let last = units as u8 - 1;
    *unit = match (chosen(), *unit) {
        (Fault::UnitsExchanged, 1 | 2) if units > 2 => 3 - *unit,
        (Fault::UnitBeyond, 0..=15) => last.min(*unit),
        (Fault::UnitBits, _) => *unit & 3,
        _ => *unit,
    };
}

/// Where the fault has a byte of the command's unit that belongs to this place in the medium.
fn misplaced(record: &Record, units: &[Unit], place: usize) -> usize {
    match chosen() {
        Fault::UnitFirst => place - own(record, units).first as usize * BLOCK,
        Fault::UnitWrap => place % GIBIBYTE,
        _ => place,
    }
}

/// The units up to this one, which goes on to the medium's end.
fn reaching(units: &[Unit], unit: usize) -> Vec<Unit> {
    let end: u32 = units.iter().map(|unit| unit.blocks).sum();
    let mut reaching = units[..=unit].to_vec();
    reaching[unit].blocks = end - reaching[unit].first;
    reaching
}

/// The unit whose blocks a packet is about, or the transfer under way: as a wrapper of a Read, Write or Verify, or as its data.
fn addressed(before: &Record, units: &[Unit], packet: &[u8]) -> Option<usize> {
    let unit = match before.stage {
        stage::READY if packet.len() == WRAPPER => {
            let about = matches!(packet[COMMAND], code::READ | code::WRITE | code::VERIFY);
            about.then_some(packet[UNIT])?
        }
        stage::DATA_OUT | stage::DATA_IN => before.unit,
        _ => return None,
    };
    Some(usize::from(unit)).filter(|unit| *unit < units.len())
}

/// Whether a packet ends a block of the write under way, which is then stored.
fn stores(before: &Record, packet: &[u8]) -> bool {
    before.stage == stage::DATA_OUT && packet.len() == PACKET && before.value as usize + PACKET == BLOCK
}

/// Runs a packet's event on the table and the medium that the fault lets the device have.
pub fn store(
    before: &Record,
    units: &mut [Unit],
    medium: &mut [u8],
    packet: &[u8],
    run: impl FnOnce(&mut [Unit], &mut [u8]) -> CAnswer,
) -> CAnswer {
    match chosen() {
        Fault::UnitFirst | Fault::UnitWrap if stores(before, packet) => {
            let place = place(before, units);
            let old = medium[place.clone()].to_vec();
            let answer = run(units, medium);
            let new = medium[place.clone()].to_vec();
            let at = misplaced(before, units, place.start);
            medium[place].copy_from_slice(&old);
            medium[at..at + BLOCK].copy_from_slice(&new);
            answer
        }
        Fault::UnitBoth if stores(before, packet) => {
            let answer = run(units, medium);
            let block = (before.place % units[0].blocks) as usize;
            medium.copy_within(place(before, units), block * BLOCK);
            answer
        }
        Fault::UnitRange => match addressed(before, units, packet) {
            Some(unit) => {
                let mut lent = reaching(units, unit);
                let answer = run(&mut lent, medium);
                units[unit].set_sense(lent[unit].sense());
                answer
            }
            None => run(units, medium),
        },
        Fault::SwitchOfUnit0 => {
            let switches: Vec<u8> = units.iter().map(|unit| unit.write_switch).collect();
            units.iter_mut().for_each(|unit| unit.write_switch = switches[0]);
            let answer = run(units, medium);
            units.iter_mut().zip(switches).for_each(|(unit, switch)| unit.write_switch = switch);
            answer
        }
        _ => run(units, medium),
    }
}

/// Runs an ask on the table that the fault lets the device have.
pub fn lend(before: &Record, units: &[Unit], run: impl FnOnce(&[Unit]) -> CAnswer) -> CAnswer {
    match (chosen(), addressed(before, units, &[])) {
        (Fault::UnitRange, Some(unit)) => run(&reaching(units, unit)),
        _ => run(units),
    }
}

/// At the ask: the bytes of a Read.
pub fn send(before: &Record, units: &[Unit], medium: &[u8], sent: &mut [u8]) {
    if before.stage == stage::DATA_IN {
        let place = own(before, units).first as usize * BLOCK + before.place as usize;
        let at = misplaced(before, units, place);
        if at != place {
            sent.copy_from_slice(&medium[at..at + sent.len()]);
        }
    }
}

/// A packet was put to the device. Where a command is in hand, its unit's sense is what that command left.
pub fn begin(record: &Record, units: &mut [Unit]) {
    if record.stage == stage::READY {
        return;
    }
    LAST.store(record.unit, Ordering::Relaxed);
    let sense = own(record, units).sense();
    match chosen() {
        Fault::SenseShared => units.iter_mut().for_each(|unit| unit.set_sense(sense)),
        Fault::SenseCleared if sense.is_zero() => {
            units.iter_mut().for_each(|unit| unit.set_sense(Sense::NONE))
        }
        _ => {}
    }
}

/// `senses` are those before the request.
pub fn control(units: &mut [Unit], senses: &[Sense], setup: &[u8], buffer: &mut [u8]) {
    match (chosen(), &setup[..2]) {
        (Fault::UnitCount, [0xA1, 0xFE]) => buffer[0] = units.len() as u8,
        (Fault::SenseDropped, [0x21, 0xFF]) => {
            let last = usize::from(LAST.load(Ordering::Relaxed));
            for (at, (unit, sense)) in units.iter_mut().zip(senses).enumerate() {
                if at != last {
                    unit.set_sense(*sense);
                }
            }
        }
        _ => {}
    }
}

/// A switch was turned.
pub fn turned(units: &mut [Unit], position: u8) {
    if chosen() == Fault::SwitchOfAll {
        units.iter_mut().for_each(|unit| unit.write_switch = position);
    }
}
