//! Writes and the write switch (document 02, A4): which ones fail, with which sense, and those under way.

use crate::bench::{block10, Bench};
use crate::commands::{nine, Command};
use crate::sense_data::{other, range_failure, DATA_PHASE, FIELD, NONE, OPERATION, WRITE_PROTECTED};
use crate::switch::{CLOSED, MODE_SENSE, OPEN};
use ordinary::device::{Answer, BLOCK};

const BLOCKS: usize = 16;

/// The switch is closed, and the blocks differ from one another.
fn closed() -> Bench {
    let mut bench = Bench::new(BLOCKS);
    for (number, block) in bench.medium.chunks_mut(BLOCK).enumerate() {
        block.fill(number as u8 + 1);
    }
    bench.set_switch(CLOSED);
    bench
}

/// What a host may announce with a Write of 2 blocks, or of none: nothing, either direction, less than the data, as much
/// and more.
const ANNOUNCED: [(u32, bool); 13] = [
    (0, false),
    (0, true),
    (1, true),
    (512, true),
    (1024, true),
    (u32::MAX, true),
    (1, false),
    (512, false),
    (1023, false),
    (1024, false),
    (1025, false),
    (1536, false),
    (u32::MAX, false),
];

/// Carries a command through, which must fail: it has no data whatever was announced, so that none of the meetings is a
/// phase error, and nothing is stored.
fn fails(bench: &mut Bench, (announced, data_in): (u32, bool), block: &[u8], sense_data: [u8; 18]) {
    let medium = bench.medium.clone();
    bench.command(announced, data_in, block);
    if announced > 0 && data_in {
        assert_eq!(bench.ask(), Err(Answer::Stall), "{block:02X?}");
        bench.clear_halt(0x81);
    } else if announced > 0 {
        assert_eq!(bench.send(&[0xAB; 64]), Answer::Stall, "{block:02X?}");
        bench.clear_halt(0x02);
    }
    assert_eq!(bench.send(&[0xAB; 64]), Answer::Nak, "{block:02X?}");
    assert_eq!(bench.status(), (announced, 1), "{block:02X?}");
    assert_eq!(bench.sense_data(), sense_data, "{announced} {data_in} {block:02X?}");
    assert!(bench.medium == medium, "{block:02X?}");
}

/// The sense as it is sent, all its bytes written out: 70, and no block. None is kept, that of a failure before it
/// neither.
#[test]
fn a_write_fails_with_write_protected() {
    let mut bench = closed();
    bench.command(0, false, &block10(0x2F, 300, 1));
    assert_eq!(bench.status(), (0, 1));
    bench.command(512, false, &block10(0x2A, 3, 1));
    assert_eq!(bench.held(), (WRITE_PROTECTED, 0));
    bench.clear_halt(0x02);
    assert_eq!(bench.status(), (512, 1));
    let expected = [0x70, 0, 0x07, 0, 0, 0, 0, 0x0A, 0, 0, 0, 0, 0x27, 0x00, 0, 0, 0, 0];
    assert_eq!(bench.sense_data(), expected);
    assert_eq!(bench.sense_data(), other(NONE));
}

#[test]
fn a_write_fails_whatever_was_announced() {
    let mut bench = closed();
    for announced in ANNOUNCED {
        for address in [0, 3, 14] {
            fails(&mut bench, announced, &block10(0x2A, address, 2), other(WRITE_PROTECTED));
        }
    }
}

/// Nothing would be stored, at the unit's end too.
#[test]
fn a_write_of_no_blocks_fails_too() {
    let mut bench = closed();
    for announced in ANNOUNCED {
        for address in [0, 15, 16] {
            fails(&mut bench, announced, &block10(0x2A, address, 0), other(WRITE_PROTECTED));
        }
    }
}

#[test]
fn the_range_is_checked_first() {
    let mut bench = closed();
    for (address, count, first) in
        [(15, 2, 16), (16, 1, 16), (0, 17, 16), (17, 0, 17), (300, 1, 300), (u32::MAX, 0, u32::MAX)]
    {
        for announced in ANNOUNCED {
            fails(&mut bench, announced, &block10(0x2A, address, count), range_failure(first));
        }
    }
}

/// The fields, the control byte among them, come before the range and so before the switch.
#[test]
fn the_fields_are_checked_first() {
    for (byte, bit) in [(1, 0x20), (1, 0x40), (1, 0x80), (9, 0x01), (9, 0x02), (9, 0x04)] {
        for (address, count) in [(3, 2), (3, 0), (300, 1)] {
            let mut bench = closed();
            let mut block = block10(0x2A, address, count);
            block[byte] = bit;
            ANNOUNCED.iter().for_each(|announced| fails(&mut bench, *announced, &block, other(FIELD)));
        }
    }
}

/// A code that the table has not stays unknown, those of other Writes too.
#[test]
fn the_code_is_checked_first() {
    let known = nine(0).map(|command| command.block[0]);
    let mut bench = closed();
    for code in (0..=0xFF).filter(|code| !known.contains(code)) {
        for (address, count) in [(3, 1), (300, 1)] {
            fails(&mut bench, (512, false), &block10(code, address, count), other(OPERATION));
        }
    }
}

/// Bits without a meaning, and bytes past the block's ten, change nothing.
#[test]
fn ignored_bits_do_not_open_it() {
    for length in [10, 16] {
        let mut block = [0xFF; 16];
        block[..10].copy_from_slice(&block10(0x2A, 3, 1));
        (block[1], block[6], block[9]) = (0x1F, 0xFF, 0xF8);
        fails(&mut closed(), (512, false), &block[..length], other(WRITE_PROTECTED));
    }
}

#[test]
fn every_other_command_passes() {
    for command in nine(3).into_iter().filter(|command| command.block[0] != 0x2A) {
        let mut bench = closed();
        command.begin(&mut bench);
        let received = command.pass(&mut bench);
        if command.block[0] == 0x28 {
            assert_eq!(received, [4; BLOCK]);
        }
        assert_eq!(bench.sense_data(), other(NONE), "{:02X?}", command.block);
    }
}

/// At each place in a Write of 2 blocks the switch is moved: both blocks are stored, and the next Write finds it as it was
/// left.
#[test]
fn a_write_under_way_goes_on() {
    for at in 0..=16 {
        for changes in [&[CLOSED][..], &[CLOSED, OPEN], &[OPEN, CLOSED]] {
            let mut bench = Bench::new(BLOCKS);
            bench.command(1024, false, &block10(0x2A, 3, 2));
            for packet in 0..16 {
                if packet == at {
                    changes.iter().for_each(|position| bench.set_switch(*position));
                }
                assert_eq!(bench.send(&[packet + 1; 64]), Answer::Ack, "{at}");
            }
            if at == 16 {
                changes.iter().for_each(|position| bench.set_switch(*position));
            }
            assert_eq!(bench.status(), (0, 0), "{at}");
            let stored: Vec<u8> = (1..=16).flat_map(|packet| [packet; 64]).collect();
            assert_eq!(bench.medium[3 * BLOCK..5 * BLOCK], stored, "{at}");
            assert_eq!(bench.sense_data(), other(NONE), "{at}");
            if changes.ends_with(&[CLOSED]) {
                fails(&mut bench, (512, false), &block10(0x2A, 0, 1), other(WRITE_PROTECTED));
            } else {
                writes_block_0(&mut bench);
            }
        }
    }
}

/// Carries a Write of block 0 through, which must pass.
fn writes_block_0(bench: &mut Bench) {
    let mut expected = bench.medium.clone();
    expected[..BLOCK].fill(0xAB);
    let write = Command::new(512, false, &block10(0x2A, 0, 1));
    write.begin(bench);
    write.pass(bench);
    assert!(bench.medium == expected);
}

/// What such a Write ends with is its own: a short packet is a phase error, and a host that announced more is halted.
#[test]
fn a_write_under_way_ends_as_ever() {
    let mut bench = Bench::new(BLOCKS);
    bench.command(1024, false, &block10(0x2A, 3, 2));
    bench.set_switch(CLOSED);
    (0..9).for_each(|_| assert_eq!(bench.send(&[0xAB; 64]), Answer::Ack));
    assert_eq!(bench.send(&[0xAB; 10]), Answer::Ack);
    assert_eq!(bench.status(), (512, 2));
    assert_eq!(bench.held(), (DATA_PHASE, 0));

    let mut bench = Bench::new(BLOCKS);
    bench.command(600, false, &block10(0x2A, 3, 1));
    bench.set_switch(CLOSED);
    (0..8).for_each(|_| assert_eq!(bench.send(&[0xAB; 64]), Answer::Ack));
    assert_eq!(bench.send(&[0xAB; 64]), Answer::Stall);
    assert_eq!(bench.status(), (88, 0));
}

/// A reset drops the Write with its part block; the one after the reset finds the switch.
#[test]
fn a_write_dropped_by_a_reset_does_not_go_on() {
    let mut bench = Bench::new(BLOCKS);
    bench.command(512, false, &block10(0x2A, 3, 1));
    (0..7).for_each(|_| assert_eq!(bench.send(&[0xAB; 64]), Answer::Ack));
    bench.set_switch(CLOSED);
    assert_eq!(bench.control([0x21, 0xFF, 0, 0, 0, 0, 0, 0]), Ok(vec![]));
    assert_eq!(bench.record().part, [0; BLOCK]);
    fails(&mut bench, (512, false), &block10(0x2A, 3, 1), other(WRITE_PROTECTED));
    assert!(bench.medium.iter().all(|byte| *byte == 0));
}

/// The failure was decided at the wrapper: its data, its status and its sense stay.
#[test]
fn a_failed_write_stays_failed_when_the_switch_opens() {
    let mut bench = closed();
    bench.command(512, false, &block10(0x2A, 0, 1));
    bench.set_switch(OPEN);
    assert_eq!(bench.send(&[0xAB; 64]), Answer::Stall);
    bench.clear_halt(0x02);
    assert_eq!(bench.send(&[0xAB; 64]), Answer::Nak);
    assert_eq!(bench.status(), (512, 1));
    assert_eq!(bench.sense_data(), other(WRITE_PROTECTED));
    assert!(bench.medium == closed().medium);
    writes_block_0(&mut bench);
}

#[test]
fn a_read_under_way_goes_on() {
    let mut bench = closed();
    bench.set_switch(OPEN);
    bench.command(1024, true, &block10(0x28, 3, 2));
    for packet in 0..16 {
        bench.set_switch(packet % 3 % 2);
        assert_eq!(bench.ask(), Ok(vec![4 + packet / 8; 64]));
    }
    bench.set_switch(CLOSED);
    assert_eq!(bench.status(), (0, 0));
}

/// The sense is the unit's as any other: the next accepted command takes it, Request Sense cut or not, and a drop; a
/// phase error found at the wrapper and the switch leave it.
#[test]
fn the_sense_goes_as_every_sense_does() {
    let failed = || {
        let mut bench = closed();
        bench.command(0, false, &block10(0x2A, 3, 1));
        assert_eq!(bench.status(), (0, 1));
        bench
    };
    for length in 0..=18 {
        let mut bench = failed();
        let sent = &other(WRITE_PROTECTED)[..length];
        bench.sends(length as u32, &[0x03, 0, 0, 0, length as u8, 0], sent);
        assert_eq!(bench.sense_data(), other(NONE), "{length}");
    }
    let mut bench = failed();
    bench.sends(4, &MODE_SENSE, &[0x03, 0x00, 0x80, 0x00]);
    assert_eq!(bench.sense_data(), other(NONE));
    let mut bench = failed();
    assert_eq!(bench.control([0x21, 0xFF, 0, 0, 0, 0, 0, 0]), Ok(vec![]));
    assert_eq!(bench.sense_data(), other(NONE));
    let mut bench = failed();
    bench.command(18, true, &[0x12, 0, 0, 0, 36, 0]);
    bench.set_switch(OPEN);
    bench.set_switch(CLOSED);
    bench.clear_halt(0x81);
    assert_eq!(bench.status(), (18, 2));
    assert_eq!(bench.held(), (WRITE_PROTECTED, 0));
}
