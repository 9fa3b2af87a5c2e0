//! The rows of document 01's bench sheet, and the slips it names, on the ordinary device.

use crate::bench::{block10, wrapper, Bench};
use ordinary::device::{Answer, Device, Identity, Refusal, BLOCK, MAX_NUMBER};
use ordinary::record::Record;
use ordinary::unit::{table, Unit};

const RANGE: [u8; 3] = [0x05, 0x21, 0x00];
const RESET: [u8; 8] = [0x21, 0xFF, 0, 0, 0, 0, 0, 0];

#[test]
fn the_number_is_twelve_digits() {
    for (number, text) in [(42, "000000000042"), (0, "000000000000"), (MAX_NUMBER, "999999999999")] {
        let identity = Identity { number, vendor: 0, product: 0, release: 0 };
        let string = Bench::with(identity, &[1]).control([0x80, 0x06, 3, 3, 9, 4, 255, 0]).unwrap();
        assert_eq!(string[..2], [26, 3]);
        let units: Vec<u16> = string[2..].chunks(2).map(|c| u16::from_le_bytes([c[0], c[1]])).collect();
        assert_eq!(String::from_utf16(&units).unwrap(), text);
    }
}

#[test]
fn making_refuses_media_first_then_numbers() {
    let make = |number, blocks, medium: &[u8]| {
        let identity = Identity { number, vendor: 0, product: 0, release: 0 };
        Device::make(identity, &mut table(&[blocks]), medium).map(|_| ())
    };
    let large = vec![0; 1_048_577 * BLOCK];
    for medium in [&[][..], &[0; 511], &[0; 513], &large] {
        assert_eq!(make(MAX_NUMBER + 1, 1, medium), Err(Refusal::Medium));
    }
    assert_eq!(make(MAX_NUMBER + 1, 1, &[0; 512]), Err(Refusal::Number));
    assert_eq!(make(MAX_NUMBER, 1_048_576, &large[BLOCK..]), Ok(()));
}

#[test]
fn read_capacity_gives_the_last_block() {
    let mut bench = Bench::new(128);
    bench.command(8, true, &[0x25, 0, 0, 0, 0, 0, 0, 0, 0, 0]);
    assert_eq!(bench.ask(), Ok(vec![0, 0, 0, 0x7F, 0, 0, 2, 0]));
    let status = [0x55, 0x53, 0x42, 0x53, 0x08, 0x60, 0x6A, 0x82, 0, 0, 0, 0, 0];
    assert_eq!(bench.ask(), Ok(status.to_vec()));
}

#[test]
fn ranges_end_with_the_unit() {
    let mut bench = Bench::new(128);
    bench.command(512, true, &block10(0x28, 127, 1));
    for _ in 0..8 {
        assert_eq!(bench.ask(), Ok(vec![0; 64]));
    }
    assert_eq!(bench.status(), (0, 0));
    bench.command(0, true, &block10(0x28, 128, 0));
    assert_eq!(bench.status(), (0, 0));
    for address in [128, u32::MAX] {
        bench.command(512, true, &block10(0x28, address, 1));
        assert_eq!(bench.ask(), Err(Answer::Stall));
        bench.clear_halt(0x81);
        assert_eq!(bench.status(), (512, 1));
        assert_eq!(bench.sense(), RANGE);
        assert_eq!(bench.sense(), [0; 3]);
    }
}

#[test]
fn inquiry_short_and_cut() {
    let mut bench = Bench::new(128);
    bench.command(64, true, &[0x12, 0, 0, 0, 36, 0]);
    assert_eq!(bench.ask().unwrap(), b"\x00\x80\x05\x02\x1F\x00\x00\x00COLLECT METER EXPORT    0100");
    assert_eq!(bench.ask(), Err(Answer::Stall));
    bench.clear_halt(0x81);
    assert_eq!(bench.status(), (28, 0));
    bench.command(18, true, &[0x12, 0, 0, 0, 36, 0]);
    bench.clear_halt(0x81);
    assert_eq!(bench.status(), (18, 2));
    assert_eq!(bench.ask(), Err(Answer::Stall));
}

#[test]
fn broken_wrappers_lock() {
    let good = wrapper(0, false, &[0; 6]);
    let mut unit = good.clone();
    unit[13] = 1;
    let short_block = wrapper(36, true, &[0x12, 0, 0, 0, 36]);
    for broken in [&good[..30], &unit, &short_block, &[]] {
        let mut bench = Bench::new(128);
        assert_eq!(bench.send(broken), Answer::Stall);
        bench.clear_halt(0x81);
        bench.clear_halt(0x02);
        assert_eq!((bench.send(&good), bench.ask()), (Answer::Stall, Err(Answer::Stall)));
        assert_eq!(bench.control(RESET), Ok(vec![]));
        assert_eq!(bench.send(&good), Answer::Stall);
        bench.clear_halt(0x02);
        assert_eq!((bench.send(&good), bench.send(&good)), (Answer::Ack, Answer::Nak));
    }
}

#[test]
fn a_write_cut_short_stores_whole_blocks() {
    let mut bench = Bench::new(128);
    bench.command(1024, false, &block10(0x2A, 5, 2));
    for packet in 0..9 {
        assert_eq!(bench.send(&[packet + 1; 64]), Answer::Ack);
    }
    assert_eq!(bench.send(&[0xFF; 10]), Answer::Ack);
    assert_eq!(bench.send(&[0xFF; 64]), Answer::Stall);
    assert_eq!(bench.status(), (512, 2));
    let stored: Vec<u8> = (1..9).flat_map(|packet| [packet; 64]).collect();
    assert_eq!(bench.medium[5 * BLOCK..6 * BLOCK], stored);
    assert!(bench.medium[..5 * BLOCK].iter().chain(&bench.medium[6 * BLOCK..]).all(|byte| *byte == 0));
}

#[test]
fn a_reset_drops_the_part_block() {
    let mut bench = Bench::new(4);
    bench.command(512, false, &block10(0x2A, 0, 1));
    for _ in 0..7 {
        bench.send(&[0xAA; 64]);
    }
    assert_ne!(bench.record().part, [0; 512]);
    assert_eq!(bench.bus_reset(), Answer::Ack);
    assert_eq!(bench.record().part, [0; 512]);
    assert!(bench.medium.iter().all(|byte| *byte == 0));
}

#[test]
fn checks_run_in_order_and_change_nothing() {
    let mut bench = Bench::new(2);
    bench.bus_reset();
    let (mut device, mut units) = (bench.device.clone(), bench.units.clone());
    let (own, units) = (&mut bench.medium, &mut units[..]);
    assert_eq!(device.bulk_in(units, &[], &mut []), Answer::Refused(Refusal::Medium));
    assert_eq!(device.bulk_in(units, own, &mut [0; 63]), Answer::Refused(Refusal::Buffer));
    assert_eq!(device.bulk_in(units, own, &mut [0; 64]), Answer::Silent);
    assert_eq!(device.bulk_out(units, &mut [0; 512], &[0; 65]), Answer::Refused(Refusal::Medium));
    assert_eq!(device.bulk_out(units, own, &[0; 65]), Answer::Refused(Refusal::Packet));
    assert_eq!(device.bulk_out(units, own, &[0; 64]), Answer::Silent);
    assert_eq!(device.control(units, &[0; 7], &mut [0; 63]), Answer::Refused(Refusal::Buffer));
    assert_eq!(device.control(units, &[0; 7], &mut [0; 64]), Answer::Refused(Refusal::Setup));
    assert_eq!((&device, &units[..]), (&bench.device, &bench.units[..]));
    let mut none = Device::from_record(&Record::ZERO).unwrap();
    let none_fits = &mut [Unit::new(0, 0)];
    assert_eq!(none.bus_reset(none_fits), Answer::Refused(Refusal::Record));
    assert_eq!(none.bulk_in(none_fits, &[], &mut []), Answer::Refused(Refusal::Record));
    assert_eq!(none.control(none_fits, &[], &mut []), Answer::Refused(Refusal::Record));
}
