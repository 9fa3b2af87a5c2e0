//! Sizes of one unit and its medium (document 02, A5): 1 to 1,048,576 blocks, and numbers 10 and 11 at that limit. Memory that is never
//! touched is never paid for, so that large media cost nothing.

use crate::bench::Bench;
use crate::lent::refused_with;
use ordinary::device::{Answer, Device, Identity, Refusal, BLOCK, MAX_NUMBER};
use ordinary::record::{flag, stage, Record};
use ordinary::unit::table;

const LARGEST: usize = 1_048_576;
const LAST: u32 = 1_048_575;
const IDENTITY: Identity = Identity { number: 42, vendor: 0, product: 0, release: 0 };
const SET_CONFIGURATION: [u8; 8] = [0x00, 0x09, 1, 0, 0, 0, 0, 0];

/// A configured device's record.
const READY: Record = Record { flags: flag::CONFIGURED, ..Record::ZERO };

/// What making a device of one unit leaves.
fn make(identity: Identity, blocks: u32, medium: &[u8]) -> Result<Record, Refusal> {
    Device::make(identity, &mut table(&[blocks]), medium).map(|device| device.to_record())
}

#[test]
fn read_capacity_tells_the_last_block_of_each_size() {
    for (blocks, reply) in [
        (1, [0x00, 0x00, 0x00, 0x00, 0x00, 0x00, 0x02, 0x00]),
        (4_096, [0x00, 0x00, 0x0F, 0xFF, 0x00, 0x00, 0x02, 0x00]),
        (4_097, [0x00, 0x00, 0x10, 0x00, 0x00, 0x00, 0x02, 0x00]),
        (65_536, [0x00, 0x00, 0xFF, 0xFF, 0x00, 0x00, 0x02, 0x00]),
        (65_537, [0x00, 0x01, 0x00, 0x00, 0x00, 0x00, 0x02, 0x00]),
        (1_048_575, [0x00, 0x0F, 0xFF, 0xFE, 0x00, 0x00, 0x02, 0x00]),
        (1_048_576, [0x00, 0x0F, 0xFF, 0xFF, 0x00, 0x00, 0x02, 0x00]),
    ] {
        let mut bench = Bench::new(blocks);
        bench.command(8, true, &[0x25, 0, 0, 0, 0, 0, 0, 0, 0, 0]);
        assert_eq!(bench.ask(), Ok(reply.to_vec()));
        assert_eq!(bench.status(), (0, 0));
    }
}

#[test]
fn making_takes_a_medium_of_the_unit_s_size() {
    let memory = vec![0; LARGEST * BLOCK];
    for blocks in [1, 4_096, 4_097, 65_536, 65_537, 1_048_575, 1_048_576] {
        let made = make(IDENTITY, blocks, &memory[..blocks as usize * BLOCK]);
        assert_eq!(made, Ok(Record { number: 42, ..Record::ZERO }));
    }
}

/// The medium is checked before the collector number.
#[test]
fn making_refuses_other_sizes() {
    let memory = vec![0; (2 * LARGEST + 1) * BLOCK];
    let too_large = Identity { number: MAX_NUMBER + 1, ..IDENTITY };
    let largest = LARGEST * BLOCK;
    for length in [
        0,
        256,
        BLOCK + 256,
        4_096 * BLOCK + 256,
        largest - 256,
        largest + 1,
        largest + 256,
        largest + BLOCK,
        largest + 65_536 * BLOCK,
        2 * largest,
        2 * largest + BLOCK,
    ] {
        for identity in [IDENTITY, too_large] {
            assert_eq!(make(identity, LAST + 1, &memory[..length]), Err(Refusal::Medium), "{length}");
        }
    }
    assert_eq!(make(too_large, LAST + 1, &memory[..largest]), Err(Refusal::Number));
}

/// Number 10 comes before 11: whichever medium comes with the event, one of the unit's size too. At making as well.
#[test]
fn a_unit_over_the_limit_does_not_fit() {
    let mut memory = vec![0; (LARGEST + 1) * BLOCK];
    for blocks in [0, 1_048_577, 1_048_578, 1 << 21, 1 << 23, (1 << 23) + 1, u32::MAX] {
        let units = table(&[blocks]);
        assert!(refused_with(&READY, &units), "{blocks}");
        let mut device = Device::from_record(&READY).unwrap();
        for length in [0, BLOCK, LARGEST * BLOCK, (LARGEST + 1) * BLOCK] {
            let (medium, lent) = (&mut memory[..length], &mut units.clone()[..]);
            assert_eq!(make(IDENTITY, blocks, medium), Err(Refusal::Record), "{blocks}");
            assert_eq!(device.bulk_out(lent, medium, &[0; 64]), Answer::Refused(Refusal::Record), "{blocks}");
            let answer = device.bulk_in(lent, medium, &mut [0; 64]);
            assert_eq!(answer, Answer::Refused(Refusal::Record), "{blocks}");
            assert_eq!((device.to_record(), &lent[..]), (READY, &units[..]));
        }
    }
}

#[test]
fn a_unit_at_the_limit_fits() {
    let mut bench = Bench::of(&READY, &table(&[LARGEST as u32]));
    assert_eq!(bench.ask(), Err(Answer::Nak));
    assert_eq!(bench.control(SET_CONFIGURATION), Ok(vec![]));
    assert_eq!(bench.bus_reset(), Answer::Ack);
}

/// Sizes apart by a power of two of blocks, in either direction, are among them.
#[test]
fn a_medium_of_another_size_is_refused() {
    let mut memory = vec![0; (LARGEST + 4_096) * BLOCK];
    let sizes = [
        0, 1, 2, 4_096, 4_097, 32_769, 65_536, 65_537, 65_538, 131_072, 983_040, 1_044_480, 1_048_575,
        1_048_576, 1_048_577, 1_052_672,
    ];
    for blocks in sizes.into_iter().filter(|blocks| (1..=LARGEST).contains(blocks)) {
        let units = &mut table(&[blocks as u32])[..];
        let mut device = Device::from_record(&READY).unwrap();
        for length in sizes.into_iter().filter(|length| *length != blocks).map(|length| length * BLOCK) {
            let medium = &mut memory[..length];
            assert_eq!(
                device.bulk_out(units, medium, &[0; 64]),
                Answer::Refused(Refusal::Medium),
                "{blocks}"
            );
            let answer = device.bulk_in(units, medium, &mut [0; 64]);
            assert_eq!(answer, Answer::Refused(Refusal::Medium), "{blocks}");
        }
        assert_eq!(device.bulk_in(units, &memory[..blocks * BLOCK], &mut [0; 64]), Answer::Nak);
        assert_eq!((device.to_record(), &units[..]), (READY, &table(&[blocks as u32])[..]));
    }
    let zeros = [0; 4096];
    assert!(memory.chunks(zeros.len()).all(|chunk| chunk == zeros));
}

/// A running transfer's blocks lie in the unit, at the limit too.
#[test]
fn a_running_transfer_lies_in_the_largest_medium() {
    let running =
        |stage, place, left, due| Record { stage, place, left, residue: due, announced: due, ..READY };
    let size = (LAST + 1) * 512;
    for (record, fits) in [
        (running(stage::DATA_OUT, 0, LAST + 1, size), true),
        (running(stage::DATA_OUT, LAST, 1, 512), true),
        (running(stage::DATA_OUT, LAST, 1, 511), false),
        (running(stage::DATA_OUT, LAST, 2, 1024), false),
        (running(stage::DATA_OUT, LAST + 2, 0, 0), false),
        (running(stage::DATA_OUT, 1, u32::MAX, u32::MAX), false),
        (running(stage::DATA_IN, 0, size, size), true),
        (running(stage::DATA_IN, size - 64, 64, 64), true),
        (running(stage::DATA_IN, size - 64, 65, 65), false),
        (running(stage::DATA_IN, size + 1, 0, 0), false),
        (running(stage::DATA_IN, 1, u32::MAX, u32::MAX), false),
    ] {
        let expected = if fits { Answer::Ack } else { Answer::Refused(Refusal::Record) };
        let mut device = Device::from_record(&record).unwrap();
        assert_eq!(device.bus_reset(&mut table(&[LAST + 1])), expected, "{record:?}");
    }
}
