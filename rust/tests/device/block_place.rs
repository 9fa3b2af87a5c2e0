//! Blocks of the largest medium (document 02, A5): each where it belongs, and ranges that end with the medium.

use crate::bench::{block10, Bench};
use ordinary::device::{Answer, BLOCK};
use ordinary::record::stage;
use std::ops::Range;

const LARGEST: usize = 1_048_576;
const LAST: u32 = 1_048_575;
const RANGE: [u8; 3] = [0x05, 0x21, 0x00];

/// Blocks that a device with too few bits takes one for the other: the ends, those around powers of two, and those
/// before the last by a power of two.
const MARKS: [u32; 20] = [
    0, 1, 255, 256, 4_095, 4_096, 4_097, 32_767, 32_768, 65_535, 65_536, 65_537, 524_287, 524_288, 983_039,
    1_015_807, 1_044_479, 1_048_319, 1_048_574, LAST,
];

/// A block that differs from every other one: its number again and again.
fn content(block: u32, salt: u8) -> [u8; BLOCK] {
    let [a, b, c, d] = block.to_be_bytes();
    let mut content = [salt; BLOCK];
    content.chunks_mut(8).for_each(|chunk| chunk[..4].copy_from_slice(&[a, b, c, d]));
    content
}

fn at(block: u32) -> Range<usize> {
    block as usize * BLOCK..(block as usize + 1) * BLOCK
}

/// The largest medium, its marked blocks filled.
fn largest() -> Bench {
    let mut bench = Bench::new(LARGEST);
    for block in MARKS {
        bench.medium[at(block)].copy_from_slice(&content(block, 0xAA));
    }
    bench
}

fn read(bench: &mut Bench, block: u32, count: u16) -> Vec<u8> {
    bench.command(u32::from(count) * 512, true, &block10(0x28, block, count));
    let data = (0..u32::from(count) * 8).flat_map(|_| bench.ask().unwrap()).collect();
    assert_eq!(bench.status(), (0, 0), "block {block}");
    data
}

fn write(bench: &mut Bench, block: u32, data: &[u8]) {
    let count = (data.len() / BLOCK) as u16;
    bench.command(data.len() as u32, false, &block10(0x2A, block, count));
    for packet in data.chunks(64) {
        assert_eq!(bench.send(packet), Answer::Ack);
    }
    assert_eq!(bench.status(), (0, 0), "block {block}");
}

/// A Read, Write and Verify that must fail for their range, without data.
fn fail(bench: &mut Bench, address: u32, count: u16) {
    for (code, data_in, endpoint) in [(0x28, true, 0x81), (0x2A, false, 0x02), (0x2F, true, 0x81)] {
        bench.command(512, data_in, &block10(code, address, count));
        bench.clear_halt(endpoint);
        assert_eq!(bench.status(), (512, 1), "{code:02X} {address:08X} {count}");
        assert_eq!(bench.sense(), RANGE, "{code:02X} {address:08X} {count}");
    }
}

fn verify(bench: &mut Bench, address: u32, count: u16) {
    bench.command(0, true, &block10(0x2F, address, count));
    assert_eq!(bench.status(), (0, 0), "{address:08X} {count}");
}

#[test]
fn each_block_is_read_from_its_place() {
    let mut bench = largest();
    for block in MARKS {
        assert_eq!(read(&mut bench, block, 1), content(block, 0xAA), "block {block}");
    }
    let both = [content(65_535, 0xAA), content(65_536, 0xAA)].concat();
    assert_eq!(read(&mut bench, 65_535, 2), both);
    let both = [content(LAST - 1, 0xAA), content(LAST, 0xAA)].concat();
    assert_eq!(read(&mut bench, LAST - 1, 2), both);
}

/// Each marked block is written; all else keeps its bytes, which is looked at once, at the end.
#[test]
fn each_block_is_written_to_its_place() {
    let mut bench = largest();
    for (written, block) in MARKS.into_iter().enumerate().rev() {
        write(&mut bench, block, &content(block, 0x55));
        for (index, other) in MARKS.into_iter().enumerate() {
            let salt = if index < written { 0xAA } else { 0x55 };
            assert_eq!(bench.medium[at(other)], content(other, salt), "block {other} after {block}");
        }
    }
    for block in MARKS {
        bench.medium[at(block)].fill(0);
    }
    let zeros = [0; 4096];
    assert!(bench.medium.chunks(zeros.len()).all(|chunk| chunk == zeros));
}

#[test]
fn a_write_runs_over_a_power_of_two() {
    let mut bench = largest();
    for block in [4_095, 65_535, 524_287, LAST - 1] {
        let data = [content(block, 1), content(block + 1, 2)].concat();
        write(&mut bench, block, &data);
        assert_eq!(bench.medium[at(block)], content(block, 1));
        assert_eq!(bench.medium[at(block + 1)], content(block + 1, 2));
        assert_eq!(read(&mut bench, block, 2), data);
    }
    assert_eq!(bench.medium[at(0)], content(0, 0xAA));
}

#[test]
fn ranges_end_with_the_largest_medium() {
    let mut bench = largest();
    for (address, count) in [(LAST, 1), (LAST + 1, 0), (LAST - 1, 2), (LAST - 65_534, 65_535), (0, 65_535)] {
        verify(&mut bench, address, count);
    }
    for code in [0x28, 0x2A] {
        bench.command(0, true, &block10(code, LAST + 1, 0));
        assert_eq!(bench.status(), (0, 0));
    }
    for (address, count) in
        [(LAST + 1, 1), (LAST, 2), (LAST + 2, 0), (LAST - 65_533, 65_535), (LAST + 1, 65_535)]
    {
        fail(&mut bench, address, count);
    }
    assert_eq!(bench.medium[at(LAST)], content(LAST, 0xAA));
}

/// Sums of 2^32 and just over, of which 32 bits keep little or nothing, and addresses whose low bits lie in the unit.
#[test]
fn address_and_count_do_not_wrap() {
    for blocks in [1, 4_096, 65_536, LARGEST] {
        let mut bench = Bench::new(blocks);
        for count in [0, 1, 2, 65_535] {
            fail(&mut bench, u32::MAX, count);
        }
        for (address, count) in [
            (0xFFFF_FFFE, 2),
            (0xFFFF_FFFE, 3),
            (0xFFFF_0001, 0xFFFF),
            (0xFFFF_0002, 0xFFFF),
            (0x0010_0000, 1),
            (0x0010_0001, 0),
            (0x0100_0000, 1),
            (0x0080_0000, 1),
            (0x8000_0000, 1),
        ] {
            fail(&mut bench, address, count);
        }
    }
}

/// The longest transfer has 33,553,920 bytes, more than 24 bits hold.
#[test]
fn the_longest_transfers_begin() {
    let mut bench = largest();
    let (block, bytes) = (LAST - 65_534, 65_535 * 512);
    bench.command(bytes, true, &block10(0x28, block, 65_535));
    let record = bench.record();
    assert_eq!((record.stage, record.place, record.left), (stage::DATA_IN, block * 512, bytes));
    assert_eq!(bench.ask(), Ok(vec![0; 64]));
    assert_eq!(bench.record().residue, bytes - 64);
    assert_eq!(bench.control([0x21, 0xFF, 0, 0, 0, 0, 0, 0]), Ok(vec![]));
    bench.command(bytes, false, &block10(0x2A, block, 65_535));
    assert_eq!(bench.send(&[0xFF; 10]), Answer::Ack);
    assert_eq!(bench.status(), (bytes, 2));
}
