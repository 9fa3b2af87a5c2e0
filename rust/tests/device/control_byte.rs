//! The control byte (document 02, A12): LINK, FLAG and NACA are refused, in the code's own last byte and nowhere else.

use crate::bench::{block10, Bench};
use crate::commands::{nine, Command};
use ordinary::device::{Answer, BLOCK};

const FIELD: [u8; 3] = [0x05, 0x24, 0x00];
const RANGE: [u8; 3] = [0x05, 0x21, 0x00];
const OPERATION: [u8; 3] = [0x05, 0x20, 0x00];
const LOW_BITS: u8 = 0x07;
const BLOCKS: usize = 16;

/// A bench whose blocks differ from one another.
fn numbered() -> Bench {
    let mut bench = Bench::new(BLOCKS);
    for (number, block) in bench.medium.chunks_mut(BLOCK).enumerate() {
        block.fill(number as u8 + 1);
    }
    bench
}

/// Carries a command through, which must pass: the bytes that came in, and the medium afterwards.
fn passes(command: &Command) -> (Vec<u8>, Vec<u8>) {
    let mut bench = numbered();
    command.begin(&mut bench);
    let received = command.pass(&mut bench);
    (received, bench.medium)
}

/// Carries a command through, which must fail without data; the sense tells why.
fn fails(command: &Command, sense: [u8; 3]) {
    let mut bench = numbered();
    let before = bench.medium.clone();
    command.begin(&mut bench);
    if command.announced > 0 {
        bench.clear_halt(if command.data_in { 0x81 } else { 0x02 });
    }
    assert_eq!(bench.status(), (command.announced, 1), "{:02X?}", command.block);
    assert_eq!(bench.sense(), sense, "{:02X?}", command.block);
    assert_eq!(bench.medium, before);
}

#[test]
fn each_low_bit_fails_each_command() {
    for command in nine(3) {
        for bits in [0x01, 0x02, 0x04, LOW_BITS] {
            fails(&command.with_control(bits), FIELD);
            fails(&command.with_control(bits | 0xF8), FIELD);
            fails(&command.with_control(bits).lengthened(0), FIELD);
        }
    }
}

#[test]
fn the_other_bits_are_ignored() {
    for command in nine(3) {
        assert_eq!(passes(&command.with_control(0xF8)), passes(&command));
    }
}

#[test]
fn bytes_past_the_code_s_own_length_are_ignored() {
    for command in nine(3) {
        assert_eq!(passes(&command.lengthened(LOW_BITS)), passes(&command));
    }
}

/// Byte 5 of a ten-byte command is the block address's last, where a six-byte command has its control byte.
#[test]
fn byte_5_of_ten_is_no_control_byte() {
    for command in nine(7).into_iter().filter(|command| command.block.len() == 10) {
        assert_eq!(command.block[5], LOW_BITS);
        let (received, medium) = passes(&command);
        match command.block[0] {
            0x28 => assert_eq!(received, [8; BLOCK]),
            0x2A => assert_eq!(medium[7 * BLOCK..8 * BLOCK], [0xAB; BLOCK]),
            _ => {}
        }
    }
}

#[test]
fn unknown_codes_have_no_control_byte() {
    let known = nine(0).map(|command| command.block[0]);
    for code in (0..=0xFF).filter(|code| !known.contains(code)) {
        let mut block = [LOW_BITS; 16];
        block[0] = code;
        for length in [6, 10, 16] {
            fails(&Command::new(512, true, &block[..length]), OPERATION);
        }
    }
}

#[test]
fn the_control_byte_comes_before_the_range() {
    for command in nine(BLOCKS as u32).into_iter().filter(|command| command.block[0] >= 0x28) {
        fails(&command, RANGE);
        fails(&command.with_control(0x01), FIELD);
    }
}

#[test]
fn a_refused_write_takes_no_data() {
    let mut bench = numbered();
    let before = bench.medium.clone();
    let write = Command::new(1024, false, &block10(0x2A, 3, 2));
    write.with_control(0x04).begin(&mut bench);
    assert_eq!(bench.send(&[0xAB; 64]), Answer::Stall);
    bench.clear_halt(0x02);
    assert_eq!(bench.send(&[0xAB; 64]), Answer::Nak);
    assert_eq!(bench.status(), (1024, 1));
    assert_eq!(bench.medium, before);
    assert_eq!(bench.record().part, [0; BLOCK]);
    // The next command works.
    write.begin(&mut bench);
    for _ in 0..16 {
        assert_eq!(bench.send(&[0xAB; 64]), Answer::Ack);
    }
    assert_eq!(bench.status(), (0, 0));
    assert_eq!(bench.medium[3 * BLOCK..5 * BLOCK], [0xAB; 2 * BLOCK]);
}

#[test]
fn a_refused_request_sense_replaces_the_sense() {
    let mut bench = numbered();
    bench.command(0, false, &block10(0x2F, BLOCKS as u32, 1));
    assert_eq!(bench.status(), (0, 1));
    Command::new(18, true, &[0x03, 0, 0, 0, 18, 0x01]).begin(&mut bench);
    assert_eq!(bench.ask(), Err(Answer::Stall));
    bench.clear_halt(0x81);
    assert_eq!(bench.status(), (18, 1));
    assert_eq!(bench.sense(), FIELD);
    assert_eq!(bench.sense(), [0; 3]);
}
