//! The table of units and number 10 (document 02, A7): how many units, their sizes and parts, their switches, their
//! senses where the device is unconfigured, and the unit of the record.

use crate::bench::{block10, Bench};
use crate::lent::refused_with;
use crate::several_units::SIZES;
use ordinary::device::{Answer, Device, Refusal, BLOCK};
use ordinary::record::{flag, stage, Record};
use ordinary::unit::{table, Unit, SIZE};

const LIMIT: u32 = 1_048_576;
const READY: Record = Record { flags: flag::CONFIGURED, ..Record::ZERO };

/// Each table and each of its units' numbers.
fn each_place() -> impl Iterator<Item = (Vec<Unit>, usize)> {
    SIZES.into_iter().flat_map(|sizes| (0..sizes.len()).map(move |unit| (table(sizes), unit)))
}

/// Whether a table with one change is refused, in a configured device.
fn refused_where(change: impl Fn(&mut [Unit])) -> bool {
    let refused = |sizes: &&[u32]| {
        let mut units = table(sizes);
        change(&mut units);
        refused_with(&READY, &units)
    };
    SIZES.iter().all(refused)
}

#[test]
fn one_to_four_units_fit() {
    for count in 1..=4 {
        assert!(!refused_with(&READY, &table(&vec![3; count])), "{count}");
    }
    for count in [0, 5, 6, 8, 16, 255, 256, 257, 260] {
        assert!(refused_with(&READY, &table(&vec![3; count])), "{count}");
    }
}

/// Four good units and one more, whatever that is: it is not a table of four.
#[test]
fn a_fifth_unit_is_refused() {
    for fifth in [Unit::new(0, 0), Unit::new(12, 3), Unit::new(0, 3), Unit::new(u32::MAX, u32::MAX)] {
        let mut units = table(&[3; 4]);
        units.push(fifth);
        assert!(refused_with(&READY, &units), "{fifth:?}");
    }
}

#[test]
fn a_unit_s_size_is_within_the_limit() {
    for (units, unit) in each_place() {
        for (blocks, fits) in [(1, true), (LIMIT, true), (0, false), (LIMIT + 1, false), (u32::MAX, false)] {
            let mut sizes: Vec<u32> = units.iter().map(|unit| unit.blocks).collect();
            sizes[unit] = if fits { blocks } else { 1 };
            let mut units = table(&sizes);
            units[unit].blocks = blocks;
            assert_eq!(!refused_with(&READY, &units), fits, "{blocks} in {unit} of {sizes:?}");
        }
    }
}

/// The limit is each unit's, not the sum's.
#[test]
fn four_units_of_the_largest_size_fit() {
    let mut device = Device::from_record(&READY).unwrap();
    assert_eq!(device.bus_reset(&mut table(&[LIMIT; 4])), Answer::Ack);
}

/// A sum that wraps in 32 bits to a good one is no good one.
#[test]
fn sizes_do_not_wrap() {
    for blocks in [1 << 31, u32::MAX, LIMIT + 1] {
        let units = [Unit::new(0, blocks), Unit::new(blocks, 0_u32.wrapping_sub(blocks)), Unit::new(0, 4)];
        assert!(refused_with(&READY, &units), "{blocks}");
    }
}

#[test]
fn parts_follow_on_from_block_0() {
    for (good, unit) in each_place() {
        let first = good[unit].first;
        let others = [first + 1, first.wrapping_sub(1), first + 512, first | 1 << 31, u32::MAX];
        for other in others.into_iter().chain((first > 0).then_some(0)) {
            let mut units = good.clone();
            units[unit].first = other;
            assert!(refused_with(&READY, &units), "{other} in {unit} of {good:?}");
        }
        assert!(!refused_with(&READY, &good));
    }
}

/// All parts follow on from one another, but not from block 0.
#[test]
fn parts_begin_at_block_0() {
    for shift in [1, 4, LIMIT, u32::MAX - 100] {
        assert!(refused_where(|units| units.iter_mut().for_each(|unit| unit.first += shift)), "{shift}");
    }
}

/// A gap, an overlap, and parts in another order than the table's.
#[test]
fn parts_are_in_the_table_s_order() {
    for units in [
        [Unit::new(0, 4), Unit::new(5, 2)],
        [Unit::new(0, 4), Unit::new(3, 2)],
        [Unit::new(2, 4), Unit::new(0, 2)],
        [Unit::new(0, 4), Unit::new(0, 4)],
        [Unit::new(4, 4), Unit::new(4, 4)],
    ] {
        assert!(refused_with(&READY, &units), "{units:?}");
    }
    assert!(!refused_with(&READY, &[Unit::new(0, 4), Unit::new(4, 2)]));
}

#[test]
fn every_switch_is_open_or_closed() {
    for (good, unit) in each_place() {
        for flags in [0, flag::CONFIGURED] {
            for write_switch in 0..=0xFF {
                let mut units = good.clone();
                units[unit].write_switch = write_switch;
                let refused = refused_with(&Record { flags, ..READY }, &units);
                assert_eq!(refused, write_switch > 1, "{write_switch} in {unit}, flags {flags}");
            }
        }
    }
}

/// Key, ASC, ASCQ and the number, each alone, in each unit.
#[test]
fn unconfigured_means_that_every_sense_is_zero() {
    let set: [fn(&mut Unit); 5] = [
        |unit| unit.sense_key = 1,
        |unit| unit.sense_asc = 1,
        |unit| unit.sense_ascq = 0x80,
        |unit| unit.sense_information = 1,
        |unit| unit.sense_information = 1 << 31,
    ];
    for (good, unit) in each_place() {
        for set in set {
            let mut units = good.clone();
            set(&mut units[unit]);
            assert!(refused_with(&Record::ZERO, &units), "{units:?}");
            assert!(!refused_with(&READY, &units), "{units:?}");
        }
        assert!(!refused_with(&Record::ZERO, &good));
    }
}

/// A record that fits but for its unit, in each stage. Where the stage has bytes due, one is.
fn stages() -> impl Iterator<Item = Record> {
    (0..=10).map(|stage| {
        let left = if (1..=6).contains(&stage) || stage == 10 { 1 } else { 0 };
        Record { stage, left, residue: 512, announced: 512, ..READY }
    })
}

#[test]
fn the_record_s_unit_is_in_the_table_in_every_stage() {
    for sizes in SIZES {
        for record in stages() {
            for unit in 0..=0xFF {
                let refused = refused_with(&Record { unit, ..record }, &table(sizes));
                let beyond = usize::from(unit) >= sizes.len();
                assert_eq!(refused, beyond, "stage {}, {unit} of {sizes:?}", record.stage);
            }
        }
    }
}

/// Unconfigured, halted and locked, where no command is in hand.
#[test]
fn the_record_s_unit_is_in_the_table_in_every_state() {
    let halts = flag::CONFIGURED | flag::HALT_IN | flag::HALT_OUT;
    for flags in [0, flag::CONFIGURED, halts, halts | flag::LOCKED] {
        for unit in 0..=5 {
            let record = Record { flags, unit, ..Record::ZERO };
            assert_eq!(refused_with(&record, &table(&[2, 2])), unit >= 2, "{flags}, {unit}");
        }
    }
}

/// Its bytes and blocks lie in its own unit: neither the medium's end counts nor another unit's size.
#[test]
fn a_running_transfer_lies_in_its_unit() {
    for sizes in SIZES {
        for (unit, blocks) in (0..).zip(sizes.iter().copied()) {
            let fits = |stage, place, left: u32, bytes| {
                let due = left * bytes;
                let record = Record { stage, unit, place, left, residue: due, announced: due, ..READY };
                !refused_with(&record, &table(sizes))
            };
            for (stage, end, bytes) in [(stage::DATA_OUT, blocks, 512), (stage::DATA_IN, blocks * 512, 1)] {
                for place in [0, 1, end / 2, end - 1, end] {
                    assert!(fits(stage, place, end - place, bytes), "{place}, {unit} of {sizes:?}");
                    assert!(!fits(stage, place, end - place + 1, bytes), "{place}, {unit} of {sizes:?}");
                }
                assert!(!fits(stage, end + 1, 0, bytes), "{unit} of {sizes:?}");
            }
        }
    }
}

/// A place of the largest unit's end and a count do not wrap, in the last unit of the largest table.
#[test]
fn a_running_transfer_lies_in_the_largest_unit() {
    let end = LIMIT * 512;
    for (stage, place, left, fits) in [
        (stage::DATA_OUT, LIMIT - 1, 1, true),
        (stage::DATA_OUT, LIMIT, 1, false),
        (stage::DATA_OUT, u32::MAX, 1, false),
        (stage::DATA_IN, end - 64, 64, true),
        (stage::DATA_IN, end - 64, 65, false),
        (stage::DATA_IN, u32::MAX, 64, false),
    ] {
        let record = Record { unit: 3, stage, place, left, residue: end, announced: end, ..READY };
        let answer = Device::from_record(&record).unwrap().bus_reset(&mut table(&[LIMIT; 4]));
        assert_eq!(answer == Answer::Ack, fits, "stage {stage}, {place}");
    }
}

/// A record says nothing of its table but the unit: another one that fits is not noticed, and the answers are of it.
#[test]
fn another_table_that_fits_is_taken() {
    let mut bench = Bench { unit: 1, ..Bench::units(&[3, 7]) };
    bench.command(512, true, &block10(0x28, 0, 1));
    bench.units = table(&[5, 1, 4]);
    bench.medium[5 * BLOCK..6 * BLOCK].fill(0x77);
    assert_eq!(bench.ask(), Ok(vec![0x77; 64]));
    assert_eq!(bench.control([0xA1, 0xFE, 0, 0, 0, 0, 1, 0]), Ok(vec![2]));
}

/// Number 10 comes first, whatever else an event was lent.
#[test]
fn the_table_is_checked_first() {
    for mut units in [table(&[3; 5]), vec![], vec![Unit::new(1, 3)], vec![Unit::new(0, 0)]] {
        let mut device = Device::from_record(&READY).unwrap();
        let refused = Answer::Refused(Refusal::Record);
        assert_eq!(device.bulk_in(&units, &[], &mut []), refused);
        assert_eq!(device.bulk_out(&mut units, &mut [], &[0; 65]), refused);
        assert_eq!(device.control(&mut units, &[], &mut []), refused);
        assert_eq!(device.set_switch(&mut units, 2, 9), refused);
    }
}

/// A length that is not 512 x the sum of the sizes, that of one unit or of some of them too.
#[test]
fn the_medium_is_of_the_sum_of_the_sizes() {
    for sizes in SIZES {
        let sum = sizes.iter().sum::<u32>() as usize;
        let mut memory = vec![0; 64 * BLOCK];
        let mut device = Device::from_record(&READY).unwrap();
        let mut units = table(sizes);
        for length in (0..=40 * BLOCK).step_by(256).chain([sum * BLOCK - 1, sum * BLOCK + 1]) {
            let asked = device.bulk_in(&units, &memory[..length], &mut [0; 64]);
            let long = device.bulk_out(&mut units, &mut memory[..length], &[0; 65]);
            if length == sum * BLOCK {
                assert_eq!((asked, long), (Answer::Nak, Answer::Refused(Refusal::Packet)), "{sizes:?}");
            } else {
                let refused = Answer::Refused(Refusal::Medium);
                assert_eq!((asked, long), (refused, refused), "{length} of {sizes:?}");
            }
        }
    }
}

#[test]
fn reserved_bytes_have_no_meaning() {
    let unit = Unit::new(0, 4);
    let marked = Unit { reserved0: 0xFF, reserved1: [1, 2, 3], ..unit };
    assert_eq!(marked, unit);
    assert!(!refused_with(&Record::ZERO, &[marked]));
    for at in (0..SIZE).filter(|at| ![11, 17, 18, 19].contains(at)) {
        let mut other = unit;
        other.as_bytes_mut()[at] ^= 0x40;
        assert_ne!(other, unit, "byte {at}");
    }
}

#[test]
fn the_fields_stand_where_the_header_has_them() {
    let mut unit = Unit {
        first: 0x0302_0100,
        blocks: 0x0706_0504,
        sense_key: 8,
        sense_asc: 9,
        sense_ascq: 10,
        reserved0: 11,
        sense_information: 0x0F0E_0D0C,
        write_switch: 16,
        reserved1: [17, 18, 19],
    };
    assert!(unit.as_bytes_mut().iter().copied().eq(0..20));
    let mut record = Record { stage: 44, flags: 45, address: 46, unit: 47, ..Record::ZERO };
    record.part[0] = 48;
    assert_eq!(record.as_bytes_mut()[44..49], [44, 45, 46, 47, 48]);
    assert_eq!(record.as_bytes_mut().len(), 560);
}
