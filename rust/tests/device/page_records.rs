//! Records in stage 10 (document 02, A2): which page codes they may have, and which bytes of a page.

use crate::bench::Bench;
use crate::lent::{ask, refused};
use ordinary::device::{Answer, Device, MAX_NUMBER};
use ordinary::record::Record;
use ordinary::unit::table;

const STAGE: u8 = 10;
/// The pages of collector 1,234 by their codes.
const PAGES: [(u32, &[u8]); 3] = [
    (0x00, b"\x00\x00\x00\x03\x00\x80\x83"),
    (0x80, b"\x00\x80\x00\x0C000000001234"),
    (0x83, b"\x00\x83\x00\x18\x02\x01\x00\x14COLLECT 000000001234"),
];

/// A page in hand; `residue` and `announced` allow for 64 bytes.
fn sending(value: u32, place: u32, left: u32) -> Record {
    let ready = Bench::new(1).record();
    Record { number: 1234, stage: STAGE, value, place, left, residue: 64, announced: 64, ..ready }
}

#[test]
fn a_page_s_bytes_lie_in_the_page() {
    for (value, bytes) in PAGES {
        let size = bytes.len() as u32;
        for place in 0..=size {
            assert!(!refused(&sending(value, place, 0)), "{value:02X}, {place}");
            assert!(!refused(&sending(value, place, size - place)), "{value:02X}, {place}");
            assert!(refused(&sending(value, place, size - place + 1)), "{value:02X}, {place}");
        }
        for (place, left) in [(size + 1, 0), (36, 0), (0, 36), (u32::MAX, 0), (u32::MAX, 1), (1, u32::MAX)] {
            let record = Record { residue: u32::MAX, announced: u32::MAX, ..sending(value, place, left) };
            assert!(refused(&record), "{value:02X}, {place}, {left}");
        }
    }
}

#[test]
fn any_part_of_a_page_is_sent() {
    for (value, bytes) in PAGES {
        for place in 0..bytes.len() {
            for end in place + 1..=bytes.len() {
                let left = (end - place) as u32;
                let (sent, after) = ask(&sending(value, place as u32, left));
                assert_eq!(sent, bytes[place..end], "{value:02X}");
                assert_eq!((after.stage, after.residue), (7, 64 - left));
            }
        }
    }
}

/// Nothing is due then, in either direction.
#[test]
fn a_page_with_nothing_left_naks() {
    for (value, _) in PAGES {
        let mut bench = Bench::of(&sending(value, 7, 0), &table(&[1]));
        assert_eq!((bench.ask(), bench.send(&[0; 31])), (Err(Answer::Nak), Answer::Nak));
        assert_eq!(bench.record(), sending(value, 7, 0));
    }
}

/// The bytes still due are at most the residue, and that at most the announced length.
#[test]
fn a_page_is_covered_by_the_residue() {
    for (value, bytes) in PAGES {
        let size = bytes.len() as u32;
        let record = |residue, announced| Record { residue, announced, ..sending(value, 0, size) };
        assert!(!refused(&record(size, size)));
        assert!(refused(&record(size - 1, size)));
        assert!(refused(&record(size + 1, size)));
    }
}

#[test]
fn other_values_are_no_pages() {
    for value in (0..=0x3FF).filter(|value| ![0x00, 0x80, 0x83].contains(value)) {
        assert!(refused(&sending(value, 0, 0)), "{value:X}");
        assert!(refused(&sending(value, 0, 7)), "{value:X}");
    }
    for high in (8..32).map(|bit| 1 << bit) {
        for (value, _) in PAGES {
            assert!(refused(&sending(high | value, 0, 7)), "{:X}", high | value);
        }
    }
    assert!(refused(&sending(u32::MAX, 0, 7)));
}

#[test]
fn stages_over_10_are_refused() {
    for stage in 11..=0xFF {
        for (value, _) in PAGES {
            assert!(refused(&Record { stage, ..sending(value, 0, 7) }), "{stage}");
        }
        assert!(refused(&Record { stage, ..sending(0, 0, 0) }), "{stage}");
    }
}

#[test]
fn a_page_is_in_hand_only_where_configured() {
    assert!(!refused(&sending(0x80, 0, 16)));
    assert!(refused(&Record { flags: 0, ..sending(0x80, 0, 16) }));
}

/// The digits are made from the record when they are asked for, and only from a number in range.
#[test]
fn the_number_is_the_record_s() {
    for (number, digits) in [(0, b"000000000000"), (MAX_NUMBER, b"999999999999")] {
        for (value, place) in [(0x80, 4), (0x83, 16)] {
            let record = Record { number, ..sending(value, place, 12) };
            assert_eq!(ask(&record).0, digits);
        }
    }
    assert!(refused(&Record { number: MAX_NUMBER + 1, ..sending(0x80, 0, 16) }));
    assert!(refused(&Record { number: MAX_NUMBER + 1, ..sending(0x00, 0, 7) }));
}

#[test]
fn a_record_of_a_page_is_kept() {
    for (value, bytes) in PAGES {
        let record = sending(value, 3, bytes.len() as u32 - 3);
        assert_eq!(Device::from_record(&record).unwrap().to_record(), record);
    }
}
