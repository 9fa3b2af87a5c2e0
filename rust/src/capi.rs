//! The proved device's C interface, and safe functions over it.

use crate::device::Identity;
use crate::record::Record;
use crate::unit::Unit;
use std::mem::{align_of, size_of};

/// `collector_answer` of the C header.
#[repr(C)]
#[derive(Clone, Copy, Debug, PartialEq, Eq)]
pub struct CAnswer {
    pub number: u32,
    pub count: usize,
}

const _: () = assert!(size_of::<CAnswer>() == 16 && align_of::<CAnswer>() == 8);

/// `collector_shown` of the C header: where a packet stands in what was lent.
#[repr(C)]
#[derive(Clone, Copy, Debug, PartialEq, Eq)]
pub struct CShown {
    pub number: u32,
    /// One of `source`'s numbers.
    pub source: u32,
    pub start: usize,
    pub count: usize,
}

const _: () = assert!(size_of::<CShown>() == 24 && align_of::<CShown>() == 8);

/// The numbers of what a shown packet stands in.
pub mod source {
    pub const NONE: u32 = 0;
    pub const MEDIUM: u32 = 1;
    pub const REPLY: u32 = 2;
}

unsafe extern "C" {
    fn collector_make(
        record: *mut Record,
        number: u64,
        vendor: u16,
        product: u16,
        release: u16,
        units: *mut Unit,
        unit_count: usize,
        medium: *const u8,
        medium_len: usize,
    ) -> CAnswer;
    fn collector_bus_reset(record: *mut Record, units: *mut Unit, unit_count: usize) -> CAnswer;
    fn collector_control(
        record: *mut Record,
        units: *mut Unit,
        unit_count: usize,
        setup: *const u8,
        setup_len: usize,
        buffer: *mut u8,
        buffer_len: usize,
    ) -> CAnswer;
    fn collector_bulk_out(
        record: *mut Record,
        units: *mut Unit,
        unit_count: usize,
        medium: *mut u8,
        medium_len: usize,
        packet: *const u8,
        packet_len: usize,
    ) -> CAnswer;
    fn collector_bulk_in(
        record: *mut Record,
        units: *const Unit,
        unit_count: usize,
        medium: *const u8,
        medium_len: usize,
        buffer: *mut u8,
        buffer_len: usize,
    ) -> CAnswer;
    fn collector_show(
        record: *mut Record,
        units: *const Unit,
        unit_count: usize,
        medium: *const u8,
        medium_len: usize,
        reply: *const u8,
        reply_len: usize,
    ) -> CShown;
    fn collector_reply(
        record: *const Record,
        units: *const Unit,
        unit_count: usize,
        buffer: *mut u8,
        buffer_len: usize,
    ) -> CAnswer;
    fn collector_set_switch(
        record: *mut Record,
        units: *mut Unit,
        unit_count: usize,
        position: u8,
        unit: u8,
    ) -> CAnswer;
}

// SAFETY of all eight calls: a slice's pointer is valid for its length and not null, exclusive where the callee
// writes, and any bytes are a record and a unit.

#[inline]
pub fn make(record: &mut Record, identity: Identity, units: &mut [Unit], medium: &[u8]) -> CAnswer {
    let Identity { number, vendor, product, release } = identity;
    let (table, count) = (units.as_mut_ptr(), units.len());
    unsafe {
        collector_make(record, number, vendor, product, release, table, count, medium.as_ptr(), medium.len())
    }
}

#[inline]
pub fn bus_reset(record: &mut Record, units: &mut [Unit]) -> CAnswer {
    unsafe { collector_bus_reset(record, units.as_mut_ptr(), units.len()) }
}

#[inline]
pub fn control(record: &mut Record, units: &mut [Unit], setup: &[u8], buffer: &mut [u8]) -> CAnswer {
    let (table, count) = (units.as_mut_ptr(), units.len());
    let (answer, size) = (buffer.as_mut_ptr(), buffer.len());
    unsafe { collector_control(record, table, count, setup.as_ptr(), setup.len(), answer, size) }
}

#[inline]
pub fn bulk_out(record: &mut Record, units: &mut [Unit], medium: &mut [u8], packet: &[u8]) -> CAnswer {
    let (table, count) = (units.as_mut_ptr(), units.len());
    let (bytes, size) = (medium.as_mut_ptr(), medium.len());
    unsafe { collector_bulk_out(record, table, count, bytes, size, packet.as_ptr(), packet.len()) }
}

#[inline]
pub fn bulk_in(record: &mut Record, units: &[Unit], medium: &[u8], buffer: &mut [u8]) -> CAnswer {
    let (table, count) = (units.as_ptr(), units.len());
    let (bytes, size) = (medium.as_ptr(), medium.len());
    unsafe { collector_bulk_in(record, table, count, bytes, size, buffer.as_mut_ptr(), buffer.len()) }
}

#[inline]
pub fn show(record: &mut Record, units: &[Unit], medium: &[u8], reply: &[u8]) -> CShown {
    let (table, count) = (units.as_ptr(), units.len());
    let (bytes, size) = (medium.as_ptr(), medium.len());
    unsafe { collector_show(record, table, count, bytes, size, reply.as_ptr(), reply.len()) }
}

#[inline]
pub fn reply(record: &Record, units: &[Unit], buffer: &mut [u8]) -> CAnswer {
    unsafe { collector_reply(record, units.as_ptr(), units.len(), buffer.as_mut_ptr(), buffer.len()) }
}

#[inline]
pub fn set_switch(record: &mut Record, units: &mut [Unit], position: u8, unit: u8) -> CAnswer {
    unsafe { collector_set_switch(record, units.as_mut_ptr(), units.len(), position, unit) }
}
