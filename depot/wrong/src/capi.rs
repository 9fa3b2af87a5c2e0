//! The functions of the C interface that the peer calls, over the ordinary device.

use crate::device::{Answer, Device, Identity, Refusal, PACKET};
use crate::fault;
use crate::record::{stage, Record};
use crate::scsi::Sense;
use crate::unit::{Unit, MAX_UNITS};
use std::slice::{from_raw_parts, from_raw_parts_mut};

/// `collector_answer` of the C header.
#[repr(C)]
pub struct CAnswer {
    pub number: u32,
    pub count: usize,
}

/// `collector_shown` of the C header.
#[repr(C)]
pub struct CShown {
    pub number: u32,
    pub source: u32,
    pub start: usize,
    pub count: usize,
}

impl CShown {
    /// COLLECTOR_NAK: nothing is shown.
    pub const NONE: CShown = CShown { number: 2, source: 0, start: 0, count: 0 };

    /// COLLECTOR_DATA, in COLLECTOR_SOURCE_MEDIUM.
    fn in_medium(start: usize, count: usize) -> CShown {
        CShown { number: 0, source: 1, start, count }
    }
}

impl From<Answer> for CAnswer {
    fn from(answer: Answer) -> Self {
        CAnswer { number: answer.number(), count: answer.count() as usize }
    }
}

/// One event on the device that the record tells of.
fn event(record: &mut Record, run: impl FnOnce(&mut Device) -> Answer) -> CAnswer {
    let Some(mut device) = Device::from_record(record) else {
        return Answer::Refused(Refusal::Record).into();
    };
    let answer = run(&mut device);
    *record = device.to_record();
    answer.into()
}

/// The lent table. The peer, which is this library's only caller, lends one to four units; a table of another number is no table.
unsafe fn table<'a>(units: *mut Unit, count: usize) -> &'a mut [Unit] {
    assert!((1..=MAX_UNITS).contains(&count), "{count} units");
    from_raw_parts_mut(units, count)
}

/// # Safety
/// As of the C header: each pointer is valid for the length beside it, and no two calls run at once.
#[no_mangle]
pub unsafe extern "C" fn collector_make(
    record: &mut Record,
    number: u64,
    vendor: u16,
    product: u16,
    release: u16,
    units: *mut Unit,
    unit_count: usize,
    medium: *const u8,
    medium_len: usize,
) -> CAnswer {
    let (units, medium) = (table(units, unit_count), from_raw_parts(medium, medium_len));
    let made = Device::make(Identity { number, vendor, product, release }, units, medium);
    let made = fault::make(units, medium, made);
    *record = made.as_ref().map_or(Record::ZERO, Device::to_record);
    made.map_or_else(Answer::Refused, |_| Answer::Ack).into()
}

/// # Safety
/// As of `collector_make`.
#[no_mangle]
pub unsafe extern "C" fn collector_bus_reset(
    record: &mut Record,
    units: *mut Unit,
    unit_count: usize,
) -> CAnswer {
    let units = table(units, unit_count);
    let before = *record;
    let answer = event(record, |device| device.bus_reset(units));
    fault::bus_reset(&before, record, units);
    answer
}

/// # Safety
/// As of `collector_make`.
#[no_mangle]
pub unsafe extern "C" fn collector_control(
    record: &mut Record,
    units: *mut Unit,
    unit_count: usize,
    setup: *const u8,
    setup_len: usize,
    buffer: *mut u8,
    buffer_len: usize,
) -> CAnswer {
    let units = table(units, unit_count);
    let (setup, buffer) = (from_raw_parts(setup, setup_len), from_raw_parts_mut(buffer, buffer_len));
    let before = *record;
    let senses: Vec<Sense> = units.iter().map(Unit::sense).collect();
    let answer = event(record, |device| device.control(units, setup, buffer));
    fault::control(&before, record, units, &senses, setup, buffer, answer)
}

/// # Safety
/// As of `collector_make`.
#[no_mangle]
pub unsafe extern "C" fn collector_bulk_out(
    record: &mut Record,
    units: *mut Unit,
    unit_count: usize,
    medium: *mut u8,
    medium_len: usize,
    packet: *const u8,
    packet_len: usize,
) -> CAnswer {
    let units = table(units, unit_count);
    let (medium, packet) = (from_raw_parts_mut(medium, medium_len), from_raw_parts(packet, packet_len));
    let before = *record;
    let answer = fault::take(units.len(), packet, |packet| {
        fault::store(&before, units, medium, packet, |units, medium| {
            event(record, |device| device.bulk_out(units, medium, packet))
        })
    });
    fault::bulk_out(record, units, packet);
    answer
}

/// # Safety
/// As of `collector_make`.
#[no_mangle]
pub unsafe extern "C" fn collector_bulk_in(
    record: &mut Record,
    units: *const Unit,
    unit_count: usize,
    medium: *const u8,
    medium_len: usize,
    buffer: *mut u8,
    buffer_len: usize,
) -> CAnswer {
    let units: &[Unit] = table(units.cast_mut(), unit_count);
    ask(record, units, from_raw_parts(medium, medium_len), from_raw_parts_mut(buffer, buffer_len))
}

fn ask(record: &mut Record, units: &[Unit], medium: &[u8], buffer: &mut [u8]) -> CAnswer {
    let before = *record;
    let answer = fault::send(&before, units, medium, |units, medium| {
        event(record, |device| device.bulk_in(units, medium, buffer))
    });
    fault::bulk_in(&before, record, units, medium, buffer, answer)
}

/// A Read's packet. All else the peer has copied, whatever number it gets here: a status, a reply, which it does not lend, and
/// bytes of a fault's making, which stand nowhere.
///
/// # Safety
/// As of `collector_make`.
#[no_mangle]
pub unsafe extern "C" fn collector_show(
    record: &mut Record,
    units: *const Unit,
    unit_count: usize,
    medium: *const u8,
    medium_len: usize,
    _reply: *const u8,
    reply_len: usize,
) -> CShown {
    assert!(reply_len == 0, "the peer lends no reply");
    let units: &[Unit] = table(units.cast_mut(), unit_count);
    let medium = from_raw_parts(medium, medium_len);
    let (before, mut after, mut packet) = (*record, *record, [0; PACKET]);
    let CAnswer { number, count } = ask(&mut after, units, medium, &mut packet);
    if before.stage != stage::DATA_IN || number != 0 {
        return CShown::NONE;
    }
    let start = units[usize::from(before.unit)].byte(before.place);
    if medium[start..start + count] != packet[..count] {
        return CShown::NONE;
    }
    *record = after;
    fault::show(&before, record, medium_len, CShown::in_medium(start, count))
}

/// # Safety
/// As of `collector_make`.
#[no_mangle]
pub unsafe extern "C" fn collector_set_switch(
    record: &mut Record,
    units: *mut Unit,
    unit_count: usize,
    position: u8,
    unit: u8,
) -> CAnswer {
    let units = table(units, unit_count);
    let answer = event(record, |device| device.set_switch(units, position, unit));
    fault::set_switch(record, units, position);
    answer
}
