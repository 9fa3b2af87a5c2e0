//! The C interface's functions (include/collector.h), as far as the depot calls them.

use crate::unit::Unit;

/// COLLECTOR_RECORD_SIZE.
pub const RECORD: usize = 560;

/// COLLECTOR_SOURCE_MEDIUM: where a packet of a Read is shown.
pub const SOURCE_MEDIUM: u32 = 1;

/// `collector_record`. Its fields are the device's own; here only its size and alignment count.
#[repr(C, align(8))]
pub struct Record(pub [u8; RECORD]);

/// `collector_answer`, which comes back by value.
#[repr(C)]
pub struct RawAnswer {
    pub number: u32,
    pub count: usize,
}

/// `collector_shown`, in the same way.
#[repr(C)]
pub struct RawShown {
    pub number: u32,
    pub source: u32,
    pub start: usize,
    pub count: usize,
}

const _: () = {
    assert!(size_of::<Record>() == RECORD && align_of::<Record>() == 8);
    assert!(size_of::<RawAnswer>() == 16 && size_of::<RawShown>() == 24);
};

extern "C" {
    pub fn collector_make(
        record: *mut Record,
        number: u64,
        vendor: u16,
        product: u16,
        release: u16,
        units: *mut Unit,
        unit_count: usize,
        medium: *const u8,
        medium_len: usize,
    ) -> RawAnswer;
    pub fn collector_bus_reset(record: *mut Record, units: *mut Unit, unit_count: usize) -> RawAnswer;
    pub fn collector_control(
        record: *mut Record,
        units: *mut Unit,
        unit_count: usize,
        setup: *const u8,
        setup_len: usize,
        buffer: *mut u8,
        buffer_len: usize,
    ) -> RawAnswer;
    pub fn collector_bulk_out(
        record: *mut Record,
        units: *mut Unit,
        unit_count: usize,
        medium: *mut u8,
        medium_len: usize,
        packet: *const u8,
        packet_len: usize,
    ) -> RawAnswer;
    pub fn collector_bulk_in(
        record: *mut Record,
        units: *const Unit,
        unit_count: usize,
        medium: *const u8,
        medium_len: usize,
        buffer: *mut u8,
        buffer_len: usize,
    ) -> RawAnswer;
    pub fn collector_show(
        record: *mut Record,
        units: *const Unit,
        unit_count: usize,
        medium: *const u8,
        medium_len: usize,
        reply: *const u8,
        reply_len: usize,
    ) -> RawShown;
    pub fn collector_set_switch(
        record: *mut Record,
        units: *mut Unit,
        unit_count: usize,
        position: u8,
        unit: u8,
    ) -> RawAnswer;
}
