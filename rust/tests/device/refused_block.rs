//! The first block outside the unit (document 02, A8): which one a range failure tells, and how Request Sense sends it.

use crate::bench::{block10, Bench};
use crate::commands::nine;
use crate::sense_data::{other, range_failure, FIELD, NONE};

/// Read, Write and Verify.
const CODES: [u8; 3] = [0x28, 0x2A, 0x2F];

/// A command that must fail; no length is announced.
fn refuse(bench: &mut Bench, code: u8, address: u32, count: u16) {
    bench.command(0, false, &block10(code, address, count));
    assert_eq!(bench.status(), (0, 1), "{code:02X} {address:08X} {count}");
}

/// The paper's example, all its bytes written out.
#[test]
fn address_120_count_10_of_128_blocks() {
    let mut bench = Bench::new(128);
    for code in CODES {
        refuse(&mut bench, code, 120, 10);
        let expected = [
            0xF0, 0x00, 0x05, 0x00, 0x00, 0x00, 0x80, 0x0A, 0x00, 0x00, 0x00, 0x00, 0x21, 0x00, 0x00, 0x00,
            0x00, 0x00,
        ];
        assert_eq!(bench.sense_data(), expected, "{code:02X}");
        assert_eq!(bench.sense_data(), other(NONE), "{code:02X}");
    }
}

/// Address, count, and the larger of the address and the number of blocks.
fn each_is_told(blocks: usize, cases: &[(u32, u16, u32)]) {
    let mut bench = Bench::new(blocks);
    for &(address, count, first) in cases {
        for code in CODES {
            refuse(&mut bench, code, address, count);
            let expected = range_failure(first);
            assert_eq!(bench.sense_data(), expected, "{code:02X} {address:08X} {count} of {blocks}");
        }
    }
}

#[test]
fn an_address_inside_tells_the_number_of_blocks() {
    each_is_told(1, &[(0, 2, 1), (0, 65_535, 1)]);
    each_is_told(128, &[(0, 129, 128), (0, 65_535, 128), (1, 128, 128), (127, 2, 128), (127, 65_535, 128)]);
    each_is_told(1_048_576, &[(1_048_575, 2, 1_048_576), (983_042, 65_535, 1_048_576)]);
}

#[test]
fn the_address_that_follows_the_last_block_is_both() {
    each_is_told(1, &[(1, 1, 1), (1, 65_535, 1)]);
    each_is_told(128, &[(128, 1, 128), (128, 65_535, 128)]);
    each_is_told(1_048_576, &[(1_048_576, 1, 1_048_576)]);
}

#[test]
fn an_address_outside_is_told() {
    each_is_told(1, &[(2, 1, 2), (256, 1, 256), (u32::MAX, 1, 0xFFFF_FFFF)]);
    each_is_told(128, &[(129, 1, 129), (129, 65_535, 129), (0x0102_0304, 5, 0x0102_0304)]);
    each_is_told(1_048_576, &[(1_048_577, 1, 1_048_577), (0x8000_0000, 1, 0x8000_0000)]);
}

/// Nothing would be moved, but the address lies outside: count 0 is checked too.
#[test]
fn count_0_past_the_end_tells_its_address() {
    each_is_told(1, &[(2, 0, 2), (u32::MAX, 0, 0xFFFF_FFFF)]);
    each_is_told(128, &[(129, 0, 129), (0xFEDC_BA98, 0, 0xFEDC_BA98), (u32::MAX, 0, 0xFFFF_FFFF)]);
    each_is_told(1_048_576, &[(1_048_577, 0, 1_048_577), (u32::MAX, 0, 0xFFFF_FFFF)]);
}

/// The sum is 2^32 or more: 32 bits keep little of it or nothing.
#[test]
fn a_sum_over_32_bits_tells_its_address() {
    let cases = [
        (u32::MAX, 1, 0xFFFF_FFFF),
        (u32::MAX, 2, 0xFFFF_FFFF),
        (u32::MAX, 65_535, 0xFFFF_FFFF),
        (0xFFFF_FFFE, 2, 0xFFFF_FFFE),
        (0xFFFF_0001, 65_535, 0xFFFF_0001),
    ];
    for blocks in [1, 128, 1_048_576] {
        each_is_told(blocks, &cases);
    }
}

#[test]
fn the_unit_s_end_passes_and_tells_nothing() {
    for blocks in [1, 128, 1_048_576] {
        let mut bench = Bench::new(blocks);
        for code in CODES {
            bench.command(0, false, &block10(code, blocks as u32, 0));
            assert_eq!(bench.status(), (0, 0), "{code:02X} {blocks}");
            assert_eq!(bench.sense_data(), other(NONE), "{code:02X} {blocks}");
        }
        bench.command(0, false, &block10(0x2F, blocks as u32 - 1, 1));
        assert_eq!(bench.status(), (0, 0), "{blocks}");
        assert_eq!(bench.sense_data(), other(NONE), "{blocks}");
    }
}

/// Fields are checked before the range: the sense is theirs, without a block.
#[test]
fn a_wrong_field_tells_no_block() {
    let mut bench = Bench::new(128);
    let outside = nine(1000).into_iter().filter(|command| CODES.contains(&command.block[0]));
    for mut block in outside.map(|command| command.block) {
        block[1] = 0x80;
        bench.command(0, false, &block);
        assert_eq!(bench.status(), (0, 1), "{block:02X?}");
        assert_eq!(bench.held().1, 0, "{block:02X?}");
        assert_eq!(bench.sense_data(), other(FIELD), "{block:02X?}");
    }
}

/// The host's length and direction have no part in it.
#[test]
fn the_block_is_told_whatever_was_announced() {
    let mut bench = Bench::new(128);
    for (code, data_in, endpoint) in
        CODES.into_iter().flat_map(|code| [(code, true, 0x81), (code, false, 0x02)])
    {
        for announced in [1, 512, 5120, u32::MAX] {
            bench.command(announced, data_in, &block10(code, 120, 10));
            bench.clear_halt(endpoint);
            assert_eq!(bench.status(), (announced, 1));
            assert_eq!(bench.sense_data(), range_failure(128), "{code:02X} {announced}");
        }
    }
}

#[test]
fn a_second_range_failure_tells_its_own_block() {
    let mut bench = Bench::new(128);
    for ((first, count), (second, next), told) in
        [((1000, 1), (120, 10), 128), ((120, 10), (1000, 1), 1000), ((129, 0), (130, 0), 130)]
    {
        refuse(&mut bench, 0x28, first, count);
        refuse(&mut bench, 0x2F, second, next);
        assert_eq!(bench.sense_data(), range_failure(told));
        assert_eq!(bench.sense_data(), other(NONE));
    }
}

/// The allocation length cuts what is sent; the sense is cleared whatever was sent of it, also if nothing was.
#[test]
fn request_sense_cuts_and_clears() {
    let whole = range_failure(0x0A0B_0C0D);
    for length in (0..=18).chain([19, 20, 64, 252, 255]) {
        for room in [0, 1, 200] {
            let mut bench = Bench::new(128);
            refuse(&mut bench, 0x28, 0x0A0B_0C0D, 1);
            let sent = &whole[..whole.len().min(length.into())];
            bench.sends(sent.len() as u32 + room, &[0x03, 0, 0, 0, length, 0], sent);
            assert_eq!(bench.held().1, 0, "{length}");
            assert_eq!(bench.sense_data(), other(NONE), "{length}");
        }
    }
}

/// The unit's sense is cleared at once: the reply keeps what the wrapper found.
#[test]
fn the_reply_is_of_what_the_wrapper_found() {
    let mut bench = Bench::new(128);
    refuse(&mut bench, 0x28, 300, 1);
    bench.command(18, true, &[0x03, 0, 0, 0, 18, 0]);
    let record = bench.record();
    assert_eq!((record.stage, record.value, record.extra), (3, 0x00_21_05, 300));
    assert_eq!(bench.held(), (NONE, 0));
    assert_eq!(bench.ask().unwrap(), range_failure(300));
    assert_eq!(bench.status(), (0, 0));
    assert_eq!(bench.sense_data(), other(NONE));
}
