//! The write switch in records and tables (document 02, A4): its positions, and the one that Mode Sense found.

use crate::bench::Bench;
use crate::lent::{ask_with, refused, refused_with};
use crate::switch::{CLOSED, OPEN};
use ordinary::device::{Answer, Refusal};
use ordinary::record::{flag, stage, Record};
use ordinary::unit::{Unit, SIZE};

const WHOLE: [[u8; 4]; 2] = [[0x03, 0x00, 0x00, 0x00], [0x03, 0x00, 0x80, 0x00]];

fn ready() -> Record {
    Bench::new(4).record()
}

/// A record that fits, in each stage. Where the stage has bytes due, some are.
fn stages() -> impl Iterator<Item = Record> {
    (0..=10).map(|stage| {
        let left = if (1..=6).contains(&stage) || stage == 10 { 1 } else { 0 };
        Record { stage, left, residue: 512, announced: 512, ..ready() }
    })
}

/// Mode Sense in hand, begun with the switch at `value`; `residue` and `announced` allow for 64 bytes.
fn sending(value: u32, place: u32, left: u32) -> Record {
    Record { stage: stage::MODE_SENSE, value, place, left, residue: 64, announced: 64, ..ready() }
}

/// A unit of four blocks.
fn unit(write_switch: u8) -> Unit {
    Unit { write_switch, ..Unit::new(0, 4) }
}

#[test]
fn the_switch_is_byte_16_of_its_unit() {
    let mut expected = [0; SIZE];
    (expected[4], expected[16]) = (4, 1);
    assert_eq!(*unit(CLOSED).as_bytes_mut(), expected);
    assert_ne!(unit(CLOSED), unit(OPEN));
}

#[test]
fn a_record_has_it_open_or_closed() {
    for record in stages() {
        for write_switch in 0..=0xFF {
            let refused = refused_with(&record, &[unit(write_switch)]);
            assert_eq!(refused, write_switch > 1, "stage {}, {write_switch}", record.stage);
        }
    }
}

/// Nothing ties it to the rest of the record: configured or not, halted, locked.
#[test]
fn it_may_be_closed_in_every_state() {
    let halts = flag::CONFIGURED | flag::HALT_IN | flag::HALT_OUT;
    for flags in [0, flag::CONFIGURED, halts, halts | flag::LOCKED] {
        for write_switch in 0..=0xFF {
            let refused = refused_with(&Record { flags, ..ready() }, &[unit(write_switch)]);
            assert_eq!(refused, write_switch > 1, "flags {flags}, {write_switch}");
        }
    }
}

/// Both are number 10, and the record stays: a wrong position does not hide a record that does not fit, nor a right one.
#[test]
fn the_event_asks_whether_the_record_fits() {
    let unfit = [
        (Record { address: 0x80, ..ready() }, unit(OPEN)),
        (ready(), Unit::new(0, 0)),
        (Record { flags: flag::HALT_IN, ..ready() }, unit(OPEN)),
        (Record { flags: flag::CONFIGURED | flag::LOCKED, ..ready() }, unit(CLOSED)),
    ];
    for (record, unit) in unfit {
        let mut bench = Bench::of(&record, &[unit]);
        for position in 0..=0xFF {
            assert_eq!(bench.turn(position, 0), Answer::Refused(Refusal::Record), "{position}");
            assert_eq!((bench.record(), bench.units[0]), (record, unit), "{position}");
        }
    }
}

#[test]
fn mode_sense_found_it_open_or_closed() {
    let bits = (0..32).map(|bit| 1 << bit);
    for value in (0..=0x3FF).chain(bits.clone()).chain(bits.map(|bit| bit | 1)).chain([u32::MAX]) {
        for write_switch in [OPEN, CLOSED] {
            assert_eq!(refused_with(&sending(value, 0, 4), &[unit(write_switch)]), value > 1, "{value:X}");
        }
    }
}

/// The value is Mode Sense's alone: no other stage that has none takes a 1.
#[test]
fn other_stages_have_no_position() {
    let without =
        [stage::READY, stage::DATA_IN, stage::INQUIRY, stage::PASSED, stage::FAILED, stage::PHASE_ERROR];
    for record in stages().filter(|record| without.contains(&record.stage)) {
        for write_switch in [OPEN, CLOSED] {
            let units = [unit(write_switch)];
            assert!(!refused_with(&record, &units), "{}", record.stage);
            assert!(refused_with(&Record { value: 1, ..record }, &units), "{}", record.stage);
        }
    }
}

/// The reply has four bytes, whichever it is, and its `extra` is 0.
#[test]
fn mode_sense_s_bytes_lie_in_the_reply() {
    for value in [0, 1] {
        for place in 0..=4 {
            assert!(!refused(&sending(value, place, 4 - place)), "{value}, {place}");
            assert!(refused(&sending(value, place, 5 - place)), "{value}, {place}");
        }
        assert!(refused(&Record { extra: 1, ..sending(value, 0, 4) }));
    }
}

/// What is sent is what the wrapper found, whatever the switch is meanwhile.
#[test]
fn any_part_of_the_reply_is_sent() {
    for (value, whole) in (0..).zip(WHOLE) {
        for write_switch in [OPEN, CLOSED] {
            for place in 0..4 {
                for end in place + 1..=4 {
                    let left = (end - place) as u32;
                    let (sent, after) = ask_with(&sending(value, place as u32, left), &[unit(write_switch)]);
                    assert_eq!(sent, whole[place..end]);
                    assert_eq!((after.stage, after.value), (stage::PASSED, 0));
                }
            }
        }
    }
}

#[test]
fn both_positions_are_kept_apart() {
    for value in [0, 1] {
        for write_switch in [OPEN, CLOSED] {
            let mut bench = Bench::of(&sending(value, 1, 3), &[unit(write_switch)]);
            assert_eq!(bench.record(), sending(value, 1, 3));
            assert_eq!(bench.turn(1 - write_switch, 0), Answer::Ack);
            assert_eq!((bench.record(), bench.units[0]), (sending(value, 1, 3), unit(1 - write_switch)));
        }
    }
}

#[test]
fn the_wrapper_puts_the_position_into_the_record() {
    for position in [OPEN, CLOSED] {
        let mut bench = Bench::new(4);
        bench.set_switch(position);
        bench.command(4, true, &[0x1A, 0, 0x3F, 0, 4, 0]);
        let record = bench.record();
        assert_eq!((record.stage, record.value, record.extra), (5, position.into(), 0));
    }
}
