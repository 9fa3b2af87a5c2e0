//! Inquiry's allocation length (document 02, A1): bytes 3 and 4, big endian, for code 12 only. Codes 03 and 1A keep byte 4.

use crate::bench::{block10, Bench};
use ordinary::device::Answer;

const INQUIRY: &[u8; 36] = b"\x00\x80\x05\x02\x1F\x00\x00\x00COLLECT METER EXPORT    0100";
const MODE_SENSE: &[u8; 4] = &[0x03, 0x00, 0x00, 0x00];
/// Request Sense after a range failure, 05/21/00: block 1 is the first outside the unit.
const RANGE_SENSE: &[u8; 18] = &[0xF0, 0, 0x05, 0, 0, 0, 1, 0x0A, 0, 0, 0, 0, 0x21, 0, 0, 0, 0, 0];

fn inquiry(byte_3: u8, byte_4: u8) -> [u8; 6] {
    [0x12, 0, 0, byte_3, byte_4, 0]
}

/// Each bit of a byte alone, then all.
fn bits() -> impl Iterator<Item = u8> {
    (0..8).map(|bit| 1 << bit).chain([0xFF])
}

#[test]
fn a_host_that_asks_for_256_bytes_gets_36() {
    let mut bench = Bench::new(1);
    bench.command(256, true, &inquiry(0x01, 0x00));
    assert_eq!(bench.ask().as_deref(), Ok(&INQUIRY[..]));
    assert_eq!(bench.ask(), Err(Answer::Stall));
    bench.clear_halt(0x81);
    assert_eq!(bench.status(), (220, 0));
    assert_eq!(bench.sense(), [0; 3]);
}

#[test]
fn the_longest_allocation_length_is_allowed() {
    let mut bench = Bench::new(1);
    for announced in [36, 65_535, u32::MAX] {
        bench.sends(announced, &inquiry(0xFF, 0xFF), INQUIRY);
    }
}

/// Any bit of byte 3 makes at least 256 bytes: byte 4 then cuts nothing.
#[test]
fn byte_3_alone_is_enough_for_the_whole_reply() {
    let mut bench = Bench::new(1);
    for byte_3 in bits() {
        for byte_4 in [0, 1, 4, 5, 35, 36, 255] {
            bench.sends(36, &inquiry(byte_3, byte_4), INQUIRY);
            bench.sends(256, &inquiry(byte_3, byte_4), INQUIRY);
        }
    }
}

/// The reply's own length field is not adjusted: it stays 1F.
#[test]
fn byte_4_cuts_while_byte_3_is_zero() {
    let mut bench = Bench::new(1);
    for byte_4 in 0..=0xFF {
        let sent = usize::from(byte_4).min(36);
        bench.sends(36, &inquiry(0, byte_4), &INQUIRY[..sent]);
        bench.sends(sent as u32, &inquiry(0, byte_4), &INQUIRY[..sent]);
    }
}

/// Zero is none, whatever is announced and in whichever direction.
#[test]
fn zero_in_both_bytes_is_no_data() {
    let mut bench = Bench::new(1);
    bench.sends(0, &inquiry(0, 0), &[]);
    bench.sends(36, &inquiry(0, 0), &[]);
    bench.command(36, false, &inquiry(0, 0));
    assert_eq!(bench.send(&[0xAB; 36]), Answer::Stall);
    bench.clear_halt(0x02);
    assert_eq!(bench.status(), (36, 0));
}

/// The allocation length cuts first, then the announced length is met. The device has 36 bytes in each row.
#[test]
fn announcing_less_than_the_device_has_is_a_phase_error() {
    for (announced, data_in, [byte_3, byte_4]) in [
        (0, true, [0x01, 0x00]),
        (5, true, [0x01, 0x05]),
        (35, true, [0x01, 0x23]),
        (35, true, [0xFF, 0xFF]),
        (256, false, [0x01, 0x00]),
    ] {
        let mut bench = Bench::new(1);
        bench.command(announced, data_in, &inquiry(byte_3, byte_4));
        match (announced, data_in) {
            (0, _) => {}
            (_, true) => assert_eq!(bench.ask(), Err(Answer::Stall)),
            (_, false) => assert_eq!(bench.send(&[0xAB; 64]), Answer::Stall),
        }
        bench.clear_halt(0x81);
        assert_eq!(bench.status(), (announced, 2), "{announced}, {byte_3:02X} {byte_4:02X}");
        bench.clear_halt(0x81);
        assert_eq!(bench.ask(), Err(Answer::Stall));
    }
}

/// Fields are checked before the length cuts: a page that there is not, a page without the page bit, a control bit.
#[test]
fn a_refused_inquiry_has_no_data_whatever_its_length() {
    let mut bench = Bench::new(1);
    for [byte_1, byte_2, byte_5] in [[0x01, 0x81, 0x00], [0x00, 0x80, 0x00], [0x00, 0x00, 0x04]] {
        for [byte_3, byte_4] in [[0x00, 0x00], [0x01, 0x00], [0xFF, 0xFF]] {
            bench.fails(256, &[0x12, byte_1, byte_2, byte_3, byte_4, byte_5], [0x05, 0x24, 0x00]);
        }
    }
}

#[test]
fn request_sense_and_mode_sense_do_not_read_byte_3() {
    let mut bench = Bench::new(1);
    for byte_3 in bits().chain([0]) {
        for byte_4 in [0, 1, 3, 4, 5, 17, 18, 19, 255] {
            let most = usize::from(byte_4);
            bench.command(0, false, &block10(0x2F, 1, 1));
            assert_eq!(bench.status(), (0, 1));
            let sense = &RANGE_SENSE[..most.min(18)];
            bench.sends(256, &[0x03, 0, 0, byte_3, byte_4, 0], sense);
            let modes = &MODE_SENSE[..most.min(4)];
            bench.sends(256, &[0x1A, 0, 0x3F, byte_3, byte_4, 0], modes);
        }
    }
}
