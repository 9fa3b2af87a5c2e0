//! The units' parts of the medium (document 02, A7): each block is read and written at 512 x (first + number), and every
//! block outside the addressed unit keeps its bytes.

use crate::bench::{block10, Bench};
use crate::several_units::{request, MASS_STORAGE_RESET, SIZES};
use ordinary::device::{Answer, BLOCK};
use std::ops::Range;

const LIMIT: u32 = 1_048_576;

/// A block that differs from every other one.
fn content(number: usize, salt: u8) -> [u8; BLOCK] {
    let mut content = [salt; BLOCK];
    content.chunks_mut(8).zip(0..).for_each(|(chunk, at)| chunk[..2].copy_from_slice(&[number as u8, at]));
    content
}

fn at(number: usize) -> Range<usize> {
    number * BLOCK..(number + 1) * BLOCK
}

/// The medium's blocks differ from one another.
fn numbered(sizes: &[u32], unit: usize) -> Bench {
    let mut bench = Bench { unit: unit as u8, ..Bench::units(sizes) };
    bench
        .medium
        .chunks_mut(BLOCK)
        .enumerate()
        .for_each(|(at, block)| block.copy_from_slice(&content(at, 0xAA)));
    bench
}

/// The unit's first block: the sizes of those before it.
fn first(sizes: &[u32], unit: usize) -> usize {
    sizes[..unit].iter().sum::<u32>() as usize
}

/// Each table and each of its units, with its first block and its size.
fn each_part() -> impl Iterator<Item = (&'static [u32], usize, usize, usize)> {
    let parts = |sizes: &'static [u32]| {
        (0..sizes.len()).map(move |unit| (sizes, unit, first(sizes, unit), sizes[unit] as usize))
    };
    SIZES.into_iter().flat_map(parts)
}

fn read(bench: &mut Bench, block: u32, count: u16) -> Vec<u8> {
    bench.command(u32::from(count) * 512, true, &block10(0x28, block, count));
    let data = (0..u32::from(count) * 8).flat_map(|_| bench.ask().unwrap()).collect();
    assert_eq!(bench.status(), (0, 0), "block {block}");
    data
}

fn write(bench: &mut Bench, block: u32, data: &[u8]) {
    bench.command(data.len() as u32, false, &block10(0x2A, block, (data.len() / BLOCK) as u16));
    data.chunks(64).for_each(|packet| assert_eq!(bench.send(packet), Answer::Ack));
    assert_eq!(bench.status(), (0, 0), "block {block}");
}

#[test]
fn each_block_is_read_from_the_unit_s_part() {
    for (sizes, unit, first, blocks) in each_part() {
        let mut bench = numbered(sizes, unit);
        for block in 0..blocks {
            assert_eq!(
                read(&mut bench, block as u32, 1),
                content(first + block, 0xAA),
                "{unit} of {sizes:?}"
            );
        }
        let whole: Vec<u8> = (0..blocks).flat_map(|block| content(first + block, 0xAA)).collect();
        assert_eq!(read(&mut bench, 0, blocks as u16), whole, "{unit} of {sizes:?}");
    }
}

#[test]
fn each_block_is_written_to_the_unit_s_part() {
    for (sizes, unit, first, blocks) in each_part() {
        for block in 0..blocks {
            let mut bench = numbered(sizes, unit);
            let mut expected = bench.medium.clone();
            expected[at(first + block)].copy_from_slice(&content(block, 0x55));
            write(&mut bench, block as u32, &content(block, 0x55));
            assert!(bench.medium == expected, "block {block}, {unit} of {sizes:?}");
        }
    }
}

#[test]
fn a_whole_unit_is_written_at_once() {
    for (sizes, unit, first, blocks) in each_part() {
        let mut bench = numbered(sizes, unit);
        let mut expected = bench.medium.clone();
        let data: Vec<u8> = (0..blocks).flat_map(|block| content(block, 0x55)).collect();
        expected[first * BLOCK..(first + blocks) * BLOCK].copy_from_slice(&data);
        write(&mut bench, 0, &data);
        assert!(bench.medium == expected, "{unit} of {sizes:?}");
    }
}

/// A block is stored with its eighth packet and not before; a drop or a packet of another length stores nothing of it.
#[test]
fn a_part_block_is_not_stored() {
    for (sizes, unit, first, blocks) in each_part().filter(|(.., blocks)| *blocks >= 2) {
        for cut in [false, true] {
            let mut bench = numbered(sizes, unit);
            let mut expected = bench.medium.clone();
            bench.command(1024, false, &block10(0x2A, blocks as u32 - 2, 2));
            for packet in 0..15 {
                assert_eq!(bench.send(&[packet; 64]), Answer::Ack);
                if packet == 7 {
                    let stored: Vec<u8> = (0..8).flat_map(|packet| [packet; 64]).collect();
                    expected[at(first + blocks - 2)].copy_from_slice(&stored);
                }
                assert!(bench.medium == expected, "packet {packet}, {unit} of {sizes:?}");
            }
            if cut {
                assert_eq!(bench.send(&[0xEE; 63]), Answer::Ack);
                assert_eq!(bench.status(), (512, 2));
            } else {
                request(&mut bench, MASS_STORAGE_RESET);
            }
            assert!(bench.medium == expected, "{unit} of {sizes:?}");
        }
    }
}

/// The bytes are those of the ask, not of the wrapper; other units' blocks have no part in it.
#[test]
fn a_read_finds_the_medium_as_it_is_at_the_ask() {
    for (sizes, unit, first, _) in each_part() {
        let mut bench = numbered(sizes, unit);
        bench.command(512, true, &block10(0x28, 0, 1));
        for packet in 0..8 {
            bench.medium.fill(0xEE);
            let from = first * BLOCK + 64 * packet;
            bench.medium[from..from + 64].fill(packet as u8);
            assert_eq!(bench.ask(), Ok(vec![packet as u8; 64]), "{unit} of {sizes:?}");
        }
        assert_eq!(bench.status(), (0, 0));
    }
}

/// One unit after the other, in no order: no command's place is left for the next one's.
#[test]
fn commands_for_several_units_take_turns() {
    let sizes = SIZES[3];
    let mut bench = numbered(sizes, 0);
    let mut expected = bench.medium.clone();
    for (unit, block) in [(3, 4), (0, 0), (2, 2), (1, 7), (3, 0), (0, 1), (1, 0), (2, 0)] {
        bench.unit = unit;
        let number = first(sizes, unit.into()) + block;
        let data = content(number, unit);
        assert_eq!(read(&mut bench, block as u32, 1), expected[at(number)]);
        write(&mut bench, block as u32, &data);
        expected[at(number)].copy_from_slice(&data);
        assert!(bench.medium == expected, "block {block} of {unit}");
    }
}

/// The largest medium has four units of the largest size. Memory that is never touched is never paid for.
#[test]
fn the_largest_units_follow_on() {
    let sizes = [LIMIT; 4];
    let mut bench = Bench::units(&sizes);
    assert_eq!(bench.medium.len(), 2_147_483_648);
    let last = LIMIT - 1;
    let places = [0, 1, 2, 3].map(|unit| (unit, unit as usize * LIMIT as usize));
    for (unit, first) in places {
        bench.unit = unit;
        write(&mut bench, 0, &content(first, 2 * unit));
        write(&mut bench, last, &content(first, 2 * unit + 1));
    }
    for (unit, first) in places {
        assert_eq!(bench.medium[at(first)], content(first, 2 * unit));
        assert_eq!(bench.medium[at(first + last as usize)], content(first, 2 * unit + 1));
        bench.unit = unit;
        assert_eq!(read(&mut bench, 0, 1), content(first, 2 * unit));
        assert_eq!(read(&mut bench, last, 1), content(first, 2 * unit + 1));
        bench.sends(8, &[0x25, 0, 0, 0, 0, 0, 0, 0, 0, 0], &[0x00, 0x0F, 0xFF, 0xFF, 0, 0, 2, 0]);
    }
}

/// A large unit between small ones keeps its neighbours' blocks.
#[test]
fn a_large_unit_between_small_ones() {
    let mut bench = Bench::units(&[2, LIMIT, 3]);
    let behind = 2 + LIMIT as usize;
    for (unit, block, number) in
        [(1, 0, 2), (1, LIMIT - 1, behind - 1), (0, 1, 1), (2, 0, behind), (2, 2, behind + 2), (0, 0, 0)]
    {
        bench.unit = unit;
        assert_eq!(read(&mut bench, block, 1), [0; BLOCK]);
        write(&mut bench, block, &content(block as usize, unit + 1));
        assert_eq!(bench.medium[at(number)], content(block as usize, unit + 1));
    }
}
