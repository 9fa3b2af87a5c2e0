//! The faults: each a slip that this trade makes, or one that a first firmware has. A fault changes what the ordinary device
//! is lent before the event, or what it did after it; `before` is the record that the event found.

mod information;
mod kind;
mod ledger;
mod pages;
mod shown;
mod switch;
mod units;

use crate::capi::CAnswer;
use crate::device::{Device, Refusal, MAX_BLOCKS};
use crate::record::{flag, stage, Record};
use crate::scsi::{code, control_place, Sense, REFUSED_CONTROL_BITS};
use crate::unit::Unit;
use kind::{chosen, Fault};
pub use shown::show;
use std::ops::Range;
use std::sync::atomic::{AtomicBool, Ordering};
use std::sync::Mutex;

const BLOCK: usize = 512;
/// A command wrapper's length, where its unit stands, and where its command block begins.
const WRAPPER: usize = 31;
const UNIT: usize = 13;
const COMMAND: usize = 15;
const DATA: u32 = 0;
const ACK: u32 = 1;
const NAK: u32 = 2;
const STALL: u32 = 3;

/// What a record cannot hold: that a reset came while the device was locked, a block that a reset found half full, a medium of its own.
static LOCK_STAYS: AtomicBool = AtomicBool::new(false);
static PART: Mutex<Option<(usize, [u8; BLOCK])>> = Mutex::new(None);
static OWN: Mutex<Option<Vec<u8>>> = Mutex::new(None);

/// The unit of the command in hand.
fn own<'a>(record: &Record, units: &'a [Unit]) -> &'a Unit {
    &units[usize::from(record.unit)]
}

fn own_mut<'a>(record: &Record, units: &'a mut [Unit]) -> &'a mut Unit {
    &mut units[usize::from(record.unit)]
}

pub fn make(units: &[Unit], medium: &[u8], made: Result<Device, Refusal>) -> Result<Device, Refusal> {
    match chosen() {
        Fault::Limit if units.iter().any(|unit| unit.blocks > 4096) => return Err(Refusal::Record),
        Fault::UnitSum if medium.len() > MAX_BLOCKS as usize * BLOCK => return Err(Refusal::Medium),
        Fault::Volatile => *OWN.lock().unwrap() = Some(medium.to_vec()),
        _ => {}
    }
    made
}

/// Runs a packet's event on the packet that the fault lets the device see. Data of a wrapper's length is dropped whatever it is.
pub fn take(units: usize, packet: &[u8], run: impl FnOnce(&[u8]) -> CAnswer) -> CAnswer {
    let mut seen = packet.to_vec();
    if seen.len() == WRAPPER {
        units::misread(units, &mut seen[UNIT]);
        misread(&mut seen[COMMAND..]);
    }
    run(&seen)
}

/// Makes of a command block what a device with the fault takes it for.
fn misread(block: &mut [u8]) {
    match (chosen(), control_place(block[0])) {
        (Fault::Control, Some(place)) => block[place] &= !REFUSED_CONTROL_BITS,
        (Fault::InquiryLength, _) if block[0] == code::INQUIRY => block[3] = 0,
        _ => pages::misread(block),
    }
}

/// Where the write under way puts its next block; block 0 where none is under way.
fn place(before: &Record, units: &[Unit]) -> Range<usize> {
    let block =
        if before.stage == stage::DATA_OUT { (own(before, units).first + before.place) as usize } else { 0 };
    block * BLOCK..(block + 1) * BLOCK
}

/// Runs a packet's event on the table and the medium that the fault lets the device have.
pub fn store(
    before: &Record,
    units: &mut [Unit],
    medium: &mut [u8],
    packet: &[u8],
    run: impl FnOnce(&mut [Unit], &mut [u8]) -> CAnswer,
) -> CAnswer {
    match chosen() {
        Fault::NeverStores | Fault::NextBlock => {
            let place = place(before, units);
            let old = medium[place.clone()].to_vec();
            let answer = run(units, medium);
            if chosen() == Fault::NextBlock && medium[place.clone()] != old {
                medium.copy_within(place.clone(), place.end % medium.len());
            }
            medium[place].copy_from_slice(&old);
            answer
        }
        Fault::Volatile => run(units, OWN.lock().unwrap().as_mut().expect("made")),
        Fault::PartStored => {
            if let Some((at, part)) = PART.lock().unwrap().take() {
                medium[at..at + BLOCK].copy_from_slice(&part);
            }
            run(units, medium)
        }
        _ => units::store(before, units, medium, packet, run),
    }
}

/// Runs an ask on the table and the medium that the device has.
pub fn send(
    before: &Record,
    units: &[Unit],
    medium: &[u8],
    run: impl FnOnce(&[Unit], &[u8]) -> CAnswer,
) -> CAnswer {
    match &*OWN.lock().unwrap() {
        Some(own) => run(units, own),
        None => units::lend(before, units, |units| run(units, medium)),
    }
}

/// A command was dropped that had gathered a part of a block.
fn dropped(before: &Record, units: &[Unit], record: &Record) {
    if before.stage == stage::DATA_OUT && before.value > 0 && record.stage == stage::READY {
        *PART.lock().unwrap() = Some((place(before, units).start, before.part));
    }
}

pub fn bus_reset(before: &Record, record: &Record, units: &mut [Unit]) {
    match chosen() {
        Fault::LockStays if before.locked() => LOCK_STAYS.store(true, Ordering::Relaxed),
        Fault::PartStored => dropped(before, units, record),
        _ => switch::bus_reset(units),
    }
}

pub fn set_switch(record: &mut Record, units: &mut [Unit], position: u8) {
    switch::turned(record, units);
    units::turned(units, position);
}

/// `senses` are the units' before the request.
pub fn control(
    before: &Record,
    record: &mut Record,
    units: &mut [Unit],
    senses: &[Sense],
    setup: &[u8],
    buffer: &mut [u8],
    answer: CAnswer,
) -> CAnswer {
    match chosen() {
        Fault::LockStays if record.configured() && LOCK_STAYS.load(Ordering::Relaxed) => {
            record.flags |= flag::LOCKED | flag::HALT_IN | flag::HALT_OUT;
        }
        Fault::ClearFrees if answer.number == ACK && before.locked() && setup[..2] == [0x02, 0x01] => {
            let halt = if setup[4] == 0x81 { flag::HALT_IN } else { flag::HALT_OUT };
            record.flags &= !(flag::LOCKED | halt);
        }
        Fault::PartStored => dropped(before, units, record),
        Fault::ByteOrder if answer.count == 18 && setup[..4] == [0x80, 0x06, 0x00, 0x01] => {
            buffer.swap(8, 9);
            buffer.swap(10, 11);
        }
        Fault::Digits if answer.count == 26 && setup[..6] == [0x80, 0x06, 0x03, 0x03, 0x09, 0x04] => {
            return CAnswer { number: DATA, count: without_zeros(buffer) };
        }
        _ => {
            switch::control(units, setup);
            units::control(units, senses, setup, buffer);
            ledger::control(before, record, setup);
        }
    }
    answer
}

/// Drops the zeros in front of a string descriptor's digits, and shortens it.
fn without_zeros(buffer: &mut [u8]) -> usize {
    let zeros = (0..11).take_while(|digit| buffer[2 + 2 * digit] == b'0').count();
    buffer.copy_within(2 + 2 * zeros..26, 2);
    buffer[0] = 26 - 2 * zeros as u8;
    buffer[0].into()
}

/// The place of the transfer under way, in a device whose addresses are too short for it.
fn wrap(record: &mut Record, blocks: u32) {
    match record.stage {
        stage::DATA_OUT => record.place %= blocks,
        stage::DATA_IN => record.place %= blocks * BLOCK as u32,
        _ => {}
    }
}

pub fn bulk_out(record: &mut Record, units: &mut [Unit], packet: &[u8]) {
    match chosen() {
        Fault::Wrap4096 => wrap(record, 4096),
        Fault::Wrap65536 => wrap(record, 65_536),
        Fault::Sense if record.stage == stage::REQUEST_SENSE => (record.value, record.extra) = (0, 0),
        Fault::Sum if record.stage == stage::FAILED && packet.len() == WRAPPER && packet[COMMAND] == 0x2F => {
            let address = u32::from_be_bytes(packet[17..21].try_into().unwrap());
            let count = u16::from_be_bytes(packet[22..24].try_into().unwrap());
            if address.wrapping_add(count.into()) <= own(record, units).blocks {
                record.stage = stage::PASSED;
                own_mut(record, units).set_sense(Sense::NONE);
            }
        }
        _ => {
            pages::begin(record);
            information::begin(record, units, packet);
            switch::begin(record, units, packet);
            units::begin(record, units);
            ledger::begin(packet);
        }
    }
}

pub fn bulk_in(
    before: &Record,
    record: &mut Record,
    units: &[Unit],
    medium: &[u8],
    buffer: &mut [u8],
    answer: CAnswer,
) -> CAnswer {
    if answer.number == NAK && chosen() == Fault::Impatient {
        return CAnswer { number: STALL, count: 0 };
    }
    if answer.number != DATA {
        return answer;
    }
    let status = before.status_due();
    match chosen() {
        Fault::Capacity if before.stage == stage::READ_CAPACITY => {
            buffer[..4].copy_from_slice(&before.value.to_be_bytes())
        }
        Fault::Protected if before.stage == stage::MODE_SENSE => buffer[2] = 0x80,
        Fault::NoHalt if !status => record.flags &= !flag::HALT_IN,
        Fault::Tag if status => buffer[4] ^= 1,
        Fault::Residue if before.stage == stage::PASSED => buffer[8..12].fill(0),
        Fault::Wrap4096 => wrap(record, 4096),
        Fault::Wrap65536 => wrap(record, 65_536),
        _ => {
            pages::send(before, &mut buffer[..answer.count]);
            information::send(before, units, &mut buffer[..answer.count]);
            switch::send(before, units, &mut buffer[..answer.count]);
            units::send(before, units, medium, &mut buffer[..answer.count]);
            ledger::send(before, &mut buffer[..answer.count]);
        }
    }
    answer
}
