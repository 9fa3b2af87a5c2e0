//! A sense's number in records (document 02, A8): the unit's own, that of the reply in hand, and where there may be none.

use crate::bench::Bench;
use crate::lent::{ask, ask_with, refused, refused_with};
use crate::sense_data::{other, range_failure, DATA_PHASE};
use ordinary::device::{Answer, Device};
use ordinary::record::{flag, stage, Record};
use ordinary::unit::Unit;

const RANGE: [u8; 3] = [0x05, 0x21, 0x00];
/// Senses that are not 05/21/00, one byte apart from it or its bytes in another order; and none.
const NEAR: [[u8; 3]; 13] = [
    [0x04, 0x21, 0x00],
    [0x06, 0x21, 0x00],
    [0x05, 0x20, 0x00],
    [0x05, 0x22, 0x00],
    [0x05, 0x24, 0x00],
    [0x05, 0x21, 0x01],
    [0x05, 0x21, 0xFF],
    [0x00, 0x21, 0x00],
    [0x05, 0x00, 0x00],
    [0x00, 0x21, 0x05],
    [0x21, 0x05, 0x00],
    [0x0B, 0x4B, 0x00],
    [0x00, 0x00, 0x00],
];

fn ready() -> Record {
    Bench::new(4).record()
}

/// A unit with a sense and its number.
fn unit([sense_key, sense_asc, sense_ascq]: [u8; 3], sense_information: u32) -> Unit {
    Unit { sense_key, sense_asc, sense_ascq, sense_information, ..Unit::new(0, 4) }
}

/// Request Sense in hand: `residue` and `announced` allow for 64 bytes.
fn sending([key, asc, ascq]: [u8; 3], extra: u32) -> Record {
    let value = u32::from_le_bytes([key, asc, ascq, 0]);
    Record { stage: stage::REQUEST_SENSE, left: 18, value, extra, residue: 64, announced: 64, ..ready() }
}

/// A record that fits, in each stage but that of Request Sense. Where the stage has bytes due, some are.
fn other_stages() -> impl Iterator<Item = Record> {
    let stages = (0..=10).filter(|stage| *stage != stage::REQUEST_SENSE);
    stages.map(|stage| {
        let left = if (1..=6).contains(&stage) || stage == 10 { 1 } else { 0 };
        Record { stage, left, residue: 512, announced: 512, ..ready() }
    })
}

/// Each bit alone, and more.
fn numbers() -> impl Iterator<Item = u32> {
    (0..32).map(|bit| 1 << bit).chain([3, 128, 0x0102_0304, u32::MAX])
}

/// A wrapper is due.
fn bench(unit: Unit) -> Bench {
    Bench::of(&ready(), &[unit])
}

#[test]
fn extra_is_0_in_every_other_stage() {
    for record in other_stages() {
        assert!(!refused(&record), "{}", record.stage);
        for extra in numbers() {
            assert!(refused(&Record { extra, ..record }), "{} {extra:X}", record.stage);
            let damaged = Record { extra, ..record };
            assert!(refused_with(&damaged, &[unit(RANGE, extra)]), "{} {extra:X}", record.stage);
        }
    }
}

/// No rule asks anything of the number of a configured unit, whatever the stage and the rest of the sense.
#[test]
fn a_configured_unit_has_any_number() {
    for number in numbers() {
        for record in other_stages().chain([sending(RANGE, 1), sending([0; 3], 0)]) {
            assert!(!refused_with(&record, &[unit([0; 3], number)]), "{} {number:X}", record.stage);
        }
        for sense in NEAR.into_iter().chain([RANGE]) {
            assert!(!refused_with(&ready(), &[unit(sense, number)]), "{sense:02X?} {number:X}");
        }
    }
}

#[test]
fn an_unconfigured_unit_has_none() {
    let unconfigured = Record { flags: 0, ..ready() };
    assert_eq!(ready().flags, flag::CONFIGURED);
    assert!(!refused(&unconfigured));
    for number in numbers() {
        assert!(refused_with(&unconfigured, &[unit([0; 3], number)]), "{number:X}");
        assert!(refused_with(&unconfigured, &[unit(RANGE, number)]), "{number:X}");
    }
    for sense in [RANGE, [1, 0, 0], [0, 1, 0], [0, 0, 1]] {
        assert!(refused_with(&unconfigured, &[unit(sense, 0)]), "{sense:02X?}");
    }
}

#[test]
fn a_range_failure_sends_its_number_also_if_it_is_0() {
    for number in numbers().chain([0]) {
        assert_eq!(bench(unit(RANGE, number)).sense_data(), range_failure(number), "{number:X}");
        assert_eq!(ask(&sending(RANGE, number)).0, range_failure(number), "{number:X}");
    }
}

#[test]
fn other_senses_send_zeros_whatever_their_number() {
    for sense in NEAR {
        for number in numbers().chain([0]) {
            assert_eq!(bench(unit(sense, number)).sense_data(), other(sense), "{sense:02X?} {number:X}");
            assert_eq!(ask(&sending(sense, number)).0, other(sense), "{sense:02X?} {number:X}");
        }
    }
}

/// The unit's sense goes to the reply as it was found, with its number, also where that is not sent.
#[test]
fn the_wrapper_takes_the_whole_sense() {
    for sense in NEAR.into_iter().chain([RANGE]) {
        let mut bench = bench(unit(sense, 7));
        bench.command(18, true, &[0x03, 0, 0, 0, 18, 0]);
        let Record { stage, value, extra, .. } = sending(sense, 7);
        let record = bench.record();
        assert_eq!((record.stage, record.value, record.extra), (stage, value, extra), "{sense:02X?}");
        assert_eq!(bench.held(), ([0; 3], 0), "{sense:02X?}");
    }
}

/// The reply in hand is sent, whatever the unit's own sense is meanwhile.
#[test]
fn the_reply_s_number_is_not_the_unit_s() {
    let (sent, after) = ask_with(&sending(RANGE, 0x1111_1111), &[unit(RANGE, 0x2222_2222)]);
    assert_eq!(sent, range_failure(0x1111_1111));
    assert_eq!((after.stage, after.extra), (stage::PASSED, 0));
}

/// No event leaves a Write in hand with such a sense; its packet of another length still sets one without a number.
#[test]
fn a_data_phase_error_has_no_number() {
    let write = Record { stage: stage::DATA_OUT, left: 1, residue: 512, announced: 512, ..ready() };
    let mut bench = Bench::of(&write, &[unit(RANGE, 7)]);
    assert_eq!(bench.send(&[0; 10]), Answer::Ack);
    assert_eq!(bench.held(), (DATA_PHASE, 0));
}

#[test]
fn any_part_of_the_reply_is_sent() {
    let whole = range_failure(0x0A0B_0C0D);
    for place in 0..18 {
        for end in place + 1..=18 {
            let left = (end - place) as u32;
            let record = Record { place: place as u32, left, ..sending(RANGE, 0x0A0B_0C0D) };
            assert_eq!(ask(&record).0, whole[place..end]);
        }
    }
}

/// A bus reset leaves nothing of either number.
#[test]
fn a_bus_reset_leaves_no_number() {
    for sense in NEAR.into_iter().chain([RANGE]) {
        for record in [ready(), sending(sense, 8)] {
            let mut bench = Bench::of(&record, &[unit(sense, 7)]);
            assert_eq!(bench.bus_reset(), Answer::Ack);
            assert_eq!(bench.record(), Record { flags: 0, ..ready() }, "{sense:02X?}");
            assert_eq!(bench.units, [unit([0; 3], 0)], "{sense:02X?}");
        }
    }
}

#[test]
fn both_numbers_are_compared() {
    for sense in NEAR.into_iter().chain([RANGE]) {
        let record = sending(sense, 0x1111_1111);
        assert_eq!(Device::from_record(&record).unwrap().to_record(), record);
        assert_ne!(Record { extra: 0, ..record }, record);
        assert_ne!(unit(sense, 0x2222_2222), unit(sense, 0));
    }
}
