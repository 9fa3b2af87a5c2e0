//! Inquiry's product pages (document 02, A2): 00, 80 and 83, cut like every reply; all other pages fail.

use crate::bench::{block10, Bench, TAG};
use ordinary::device::{Answer, Identity, MAX_NUMBER};
use ordinary::record::{stage, Record};

const FIELD: [u8; 3] = [0x05, 0x24, 0x00];
const STANDARD: &[u8; 36] = b"\x00\x80\x05\x02\x1F\x00\x00\x00COLLECT METER EXPORT    0100";

/// The pages of collector 42 by their codes.
const PAGES: [(u8, &[u8]); 3] = [
    (0x00, b"\x00\x00\x00\x03\x00\x80\x83"),
    (0x80, b"\x00\x80\x00\x0C000000000042"),
    (0x83, b"\x00\x83\x00\x18\x02\x01\x00\x14COLLECT 000000000042"),
];

/// Inquiry with EVPD set.
fn page(code: u8, length: u16) -> [u8; 6] {
    let [byte_3, byte_4] = length.to_be_bytes();
    [0x12, 0x01, code, byte_3, byte_4, 0]
}

fn other_codes() -> impl Iterator<Item = u8> {
    (0..=0xFF).filter(|code| ![0x00, 0x80, 0x83].contains(code))
}

/// A whole page of a collector.
fn ask_page(bench: &mut Bench, code: u8) -> Vec<u8> {
    bench.command(255, true, &page(code, 255));
    let bytes = bench.ask().unwrap();
    bench.clear_halt(0x81);
    assert_eq!(bench.status(), (255 - bytes.len() as u32, 0));
    bytes
}

/// The twelve characters of the USB serial string.
fn usb_digits(bench: &mut Bench) -> Vec<u8> {
    let string = bench.control([0x80, 0x06, 3, 3, 9, 4, 255, 0]).unwrap();
    let units = string[2..].chunks(2).map(|unit| u16::from_le_bytes([unit[0], unit[1]]));
    units.map(|unit| u8::try_from(unit).unwrap()).collect()
}

fn collector(number: u64) -> Bench {
    Bench::with(Identity { number, vendor: 0, product: 0, release: 0 }, &[1])
}

/// A Verify past the unit's end, which leaves a range failure's sense.
fn leave_range_sense(bench: &mut Bench) {
    bench.command(0, false, &block10(0x2F, 1, 1));
    assert_eq!(bench.status(), (0, 1));
}

#[test]
fn each_page_is_sent_whole() {
    let mut bench = Bench::new(1);
    for ((code, bytes), size) in PAGES.into_iter().zip([7, 16, 28]) {
        bench.sends(size, &page(code, size as u16), bytes);
        bench.sends(252, &page(code, 252), bytes);
    }
}

/// The length fields within a page are not adjusted: what is sent is the whole page's beginning.
#[test]
fn each_page_is_cut_at_its_allocation_length() {
    let mut bench = Bench::new(1);
    for (code, bytes) in PAGES {
        let lengths = (0..=bytes.len() as u16 + 1).chain([255, 256, 257, 0x0104, 0x1000, 0xFF00, 65_535]);
        for length in lengths {
            let sent = &bytes[..bytes.len().min(length.into())];
            bench.sends(sent.len() as u32, &page(code, length), sent);
            bench.sends(length.into(), &page(code, length), sent);
            bench.sends(64, &page(code, length), sent);
        }
    }
}

/// Zero is none, whatever is announced and in whichever direction.
#[test]
fn a_page_of_allocation_length_0_passes_without_data() {
    let mut bench = Bench::new(1);
    for (code, _) in PAGES {
        for announced in [0, 1, 28, u32::MAX] {
            bench.sends(announced, &page(code, 0), &[]);
        }
        bench.command(64, false, &page(code, 0));
        assert_eq!(bench.send(&[0xAB; 64]), Answer::Stall);
        bench.clear_halt(0x02);
        assert_eq!(bench.status(), (64, 0));
        assert_eq!(bench.sense(), [0; 3]);
    }
}

/// Fields are checked before the length cuts, so that allocation length 0 fails too.
#[test]
fn every_other_page_fails() {
    let mut bench = Bench::new(1);
    for code in other_codes() {
        for length in [0, 1, 28, 255, 256, 65_535] {
            bench.fails(0, &page(code, length), FIELD);
            bench.fails(64, &page(code, length), FIELD);
        }
    }
}

#[test]
fn a_refused_page_has_no_data_for_a_host_that_sends() {
    let mut bench = Bench::new(1);
    for length in [0, 28] {
        bench.command(64, false, &page(0x81, length));
        assert_eq!(bench.send(&[0xAB; 64]), Answer::Stall);
        bench.clear_halt(0x02);
        assert_eq!(bench.status(), (64, 1));
        assert_eq!(bench.sense(), FIELD);
    }
}

#[test]
fn a_page_code_without_evpd_fails() {
    let mut bench = Bench::new(1);
    for code in 1..=0xFF {
        for byte_1 in [0x00, 0x02, 0xFE] {
            for length in [0, 36, 255] {
                bench.fails(36, &[0x12, byte_1, code, 0, length, 0], FIELD);
            }
        }
    }
}

#[test]
fn the_other_bits_of_byte_1_are_ignored() {
    let mut bench = Bench::new(1);
    for bits in (1..8).map(|bit| 1 << bit).chain([0xFE]) {
        for (code, bytes) in PAGES {
            let mut block = page(code, 255);
            block[1] |= bits;
            bench.sends(64, &block, bytes);
        }
        let mut refused = page(0x81, 255);
        refused[1] |= bits;
        bench.fails(64, &refused, FIELD);
        bench.sends(64, &[0x12, bits, 0, 0, 255, 0], STANDARD);
    }
}

/// Document 02, A12: bits 0 to 2 of byte 5 are refused, with allocation length 0 too; no other bit and no byte past it.
#[test]
fn the_control_byte_is_a_field_of_the_pages() {
    let mut bench = Bench::new(1);
    for (code, bytes) in PAGES {
        for bits in [0x01, 0x02, 0x04, 0xFF] {
            for length in [0, 255] {
                let mut block = page(code, length);
                block[5] = bits;
                bench.fails(64, &block, FIELD);
            }
        }
        let mut block = [0xFF; 16];
        block[..6].copy_from_slice(&page(code, 255));
        block[5] = 0xF8;
        bench.sends(64, &block, bytes);
    }
}

/// Announced are less bytes than the page, cut to its allocation length, has; or the host wants to send. No data moves,
/// the pipe that the host meant is halted, and the sense stays.
#[test]
fn a_page_that_does_not_meet_the_host_is_a_phase_error() {
    for (code, bytes) in PAGES {
        let size = bytes.len() as u32;
        for (announced, data_in, length) in [
            (0, true, 1),
            (0, true, 255),
            (0, false, 255),
            (1, true, 2),
            (5, true, 6),
            (size - 1, true, size as u16),
            (size - 1, true, 256),
            (1, false, 255),
            (5, false, 5),
            (size, false, size as u16),
            (64, false, 65_535),
        ] {
            let mut bench = Bench::new(1);
            leave_range_sense(&mut bench);
            bench.command(announced, data_in, &page(code, length));
            let record = bench.record();
            assert_eq!(bench.held().0, [0x05, 0x21, 0x00]);
            let halts = (announced > 0 && data_in, announced > 0 && !data_in);
            assert_eq!((record.halt_in(), record.halt_out()), halts, "{code:02X}, {announced}");
            bench.clear_halt(0x81);
            assert_eq!(bench.status(), (announced, 2), "{code:02X}, {announced}, {length}");
            bench.clear_halt(0x81);
            assert_eq!(bench.ask(), Err(Answer::Stall));
        }
    }
}

#[test]
fn a_page_clears_the_sense_and_a_refused_one_sets_it() {
    let mut bench = Bench::new(1);
    for (code, bytes) in PAGES {
        for length in [0, 5, 255] {
            leave_range_sense(&mut bench);
            let sent = &bytes[..bytes.len().min(length)];
            bench.sends(64, &page(code, length as u16), sent);
            assert_eq!(bench.sense(), [0; 3]);
        }
    }
    leave_range_sense(&mut bench);
    bench.fails(64, &page(0x82, 255), FIELD);
    assert_eq!(bench.sense(), [0; 3]);
}

/// Stage 10 tells the page's code, the next byte and the bytes still due; no copy of the collector number.
#[test]
fn a_page_in_hand_stands_in_the_record() {
    for (code, bytes) in PAGES {
        for left in [1, 5, bytes.len() as u32] {
            let mut bench = Bench::new(1);
            let ready = bench.record();
            bench.command(64, true, &page(code, left as u16));
            let begun =
                Record { residue: 64, announced: 64, tag: TAG, left, value: code.into(), stage: 10, ..ready };
            assert_eq!(bench.record(), begun);
            assert_eq!(bench.send(&[0; 31]), Answer::Nak);
            assert_eq!(bench.ask().unwrap(), bytes[..left as usize]);
            let Record { stage, place, left: due, value, residue, .. } = bench.record();
            assert_eq!((stage, place, due, value), (stage::PASSED, 0, 0, 0));
            assert_eq!(residue, 64 - left);
        }
    }
}

#[test]
fn the_pages_digits_are_those_of_the_usb_string() {
    for (number, digits) in [
        (0, b"000000000000"),
        (1, b"000000000001"),
        (9, b"000000000009"),
        (10, b"000000000010"),
        (42, b"000000000042"),
        (4_294_967_295, b"004294967295"),
        (4_294_967_296, b"004294967296"),
        (99_999_999_999, b"099999999999"),
        (100_000_000_000, b"100000000000"),
        (123_456_789_012, b"123456789012"),
        (MAX_NUMBER, b"999999999999"),
    ] {
        let mut bench = collector(number);
        assert_eq!(usb_digits(&mut bench), digits);
        assert_eq!(ask_page(&mut bench, 0x80), [b"\x00\x80\x00\x0C", &digits[..]].concat());
        let head = b"\x00\x83\x00\x18\x02\x01\x00\x14COLLECT ";
        assert_eq!(ask_page(&mut bench, 0x83), [head, &digits[..]].concat());
        assert_eq!(ask_page(&mut bench, 0x00), PAGES[0].1);
    }
}

/// Each digit counts, wherever it stands.
#[test]
fn two_numbers_have_two_serial_pages() {
    let numbers: Vec<u64> = (0..12).flat_map(|place| [1, 9].map(|digit| digit * 10_u64.pow(place))).collect();
    for code in [0x80, 0x83] {
        let pages: Vec<Vec<u8>> =
            numbers.iter().map(|number| ask_page(&mut collector(*number), code)).collect();
        for (at, page) in pages.iter().enumerate() {
            assert!(!pages[..at].contains(page), "{}", numbers[at]);
        }
    }
}

#[test]
fn the_pages_depend_on_the_number_alone() {
    let identity = Identity { number: 42, vendor: 0xFFFF, product: 0xABCD, release: 0x9999 };
    let mut bench = Bench::with(identity, &[300]);
    bench.medium.fill(0x5A);
    bench.command(0, false, &block10(0x2F, 300, 1));
    assert_eq!(bench.status(), (0, 1));
    for (code, bytes) in PAGES {
        assert_eq!(ask_page(&mut bench, code), bytes);
        assert_eq!(ask_page(&mut Bench::new(1), code), bytes);
    }
}
