//! The C interface's record: what decodes, what its comparison ignores, and records that no event leaves.

use crate::bench::Bench;
use crate::lent::ask;
use ordinary::device::Device;
use ordinary::record::{flag, stage, Record};

fn ready() -> Record {
    Bench::new(4).record()
}

/// A command in hand that announces 64 bytes in.
fn replying(stage: u8, left: u32, value: u32) -> Record {
    Record { stage, left, value, residue: 64, announced: 64, ..ready() }
}

#[test]
fn flags_and_stages_are_bounded() {
    assert_eq!(ready().flags, flag::CONFIGURED);
    for damaged in [
        Record { flags: 16 + flag::CONFIGURED, ..ready() },
        Record { stage: stage::COUNT as u8, ..ready() },
        Record { place: 1, ..ready() },
        Record { left: 1, ..ready() },
        Record { value: 1, ..ready() },
        replying(stage::INQUIRY, 36, 1),
        replying(stage::REQUEST_SENSE, 18, 1 << 24),
        replying(stage::PASSED, 1, 0),
    ] {
        assert_eq!(Device::from_record(&damaged), None);
    }
}

#[test]
fn what_decodes_is_kept() {
    for record in [
        Record { tag: 1, announced: 2, residue: 3, ..ready() },
        replying(stage::REQUEST_SENSE, 18, (1 << 24) - 1),
        replying(stage::READ_CAPACITY, 8, u32::MAX),
        replying(stage::FAILED, 0, 0),
    ] {
        assert_eq!(Device::from_record(&record).unwrap().to_record(), record);
    }
}

#[test]
fn reserved_bytes_have_no_meaning() {
    let record = Record { reserved0: 1, ..ready() };
    assert_eq!(record, ready());
    assert_eq!(Device::from_record(&record), Device::from_record(&ready()));
    assert_ne!(Record { part: [1; 512], ..ready() }, ready());
}

#[test]
fn capacity_of_no_blocks_tells_block_0() {
    assert_eq!(ask(&replying(stage::READ_CAPACITY, 8, 0)).0, [0, 0, 0, 0, 0, 0, 2, 0]);
}
