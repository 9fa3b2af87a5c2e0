//! Making a collector of several units (document 02, A7): numbers 10, 11 and 15 in that order, what becomes of the table,
//! and the record of zeros.

use crate::lent::refused_with;
use crate::several_units::SIZES;
use ordinary::device::{Device, Identity, Refusal, BLOCK, MAX_NUMBER};
use ordinary::record::Record;
use ordinary::unit::{table, Unit, SIZE};

const LIMIT: u32 = 1_048_576;
const IDENTITY: Identity = Identity { number: 42, vendor: 1, product: 2, release: 3 };
const TOO_LARGE: Identity = Identity { number: MAX_NUMBER + 1, ..IDENTITY };

/// A table as someone left it: senses, switches and reserved bytes are anything.
fn used(sizes: &[u32]) -> Vec<Unit> {
    let mut units = table(sizes);
    for (unit, mark) in units.iter_mut().zip(1..) {
        (unit.sense_key, unit.sense_asc, unit.sense_ascq) = (mark, 0x20 + mark, mark);
        (unit.sense_information, unit.write_switch) = (0x0101_0101 * u32::from(mark), 0xFF - mark);
        (unit.reserved0, unit.reserved1) = (mark, [mark; 3]);
    }
    units
}

fn bytes(units: &[Unit]) -> Vec<[u8; SIZE]> {
    units.iter().map(|unit| *{ *unit }.as_bytes_mut()).collect()
}

/// A making that must be refused, and must keep the table byte for byte.
fn refuses(identity: Identity, units: &[Unit], medium: &[u8], refusal: Refusal) {
    let mut lent = units.to_vec();
    assert_eq!(Device::make(identity, &mut lent, medium), Err(refusal), "{units:?}");
    assert_eq!(bytes(&lent), bytes(units));
}

fn length(sizes: &[u32]) -> usize {
    sizes.iter().sum::<u32>() as usize * BLOCK
}

/// Tables that do not fit, none for a reason that making does not look at.
fn unfit() -> Vec<Vec<Unit>> {
    let mut tables = vec![vec![], table(&[2; 5]), table(&[2; 8])];
    for sizes in SIZES {
        for unit in 0..sizes.len() {
            let changes: [fn(&mut Unit); 5] = [
                |unit| unit.blocks = 0,
                |unit| unit.blocks = LIMIT + 1,
                |unit| unit.first += 1,
                |unit| unit.first ^= 1 << 31,
                |unit| unit.first = u32::MAX,
            ];
            for change in changes {
                let mut units = used(sizes);
                change(&mut units[unit]);
                tables.push(units);
            }
        }
    }
    tables
}

/// Once made, every sense is zero and every switch open; sizes and parts stay. What they were before is not looked at.
#[test]
fn a_made_table_has_no_sense_and_no_closed_switch() {
    for sizes in SIZES {
        let mut units = used(sizes);
        let device = Device::make(IDENTITY, &mut units, &vec![0; length(sizes)]).unwrap();
        assert_eq!(units, table(sizes));
        let expected = Record { number: 42, vendor: 1, product: 2, release: 3, ..Record::ZERO };
        assert_eq!(device.to_record(), expected);
    }
}

/// Number 10 comes before 11 and 15: whichever medium and number come with the table.
#[test]
fn a_table_that_does_not_fit_is_refused_first() {
    for units in unfit() {
        for length in [0, 511, 512, 5 * BLOCK, 10 * BLOCK, 16 * BLOCK] {
            refuses(IDENTITY, &units, &vec![0; length], Refusal::Record);
            refuses(TOO_LARGE, &units, &vec![0; length], Refusal::Record);
        }
    }
}

#[test]
fn then_a_medium_of_another_length() {
    for sizes in SIZES {
        let sum = length(sizes);
        let memory = vec![0; 2 * sum];
        let without_last = length(&sizes[..sizes.len() - 1]);
        for other in [0, 1, without_last, sum - BLOCK, sum - 1, sum + 1, sum + BLOCK, 2 * sum] {
            refuses(IDENTITY, &used(sizes), &memory[..other], Refusal::Medium);
            refuses(TOO_LARGE, &used(sizes), &memory[..other], Refusal::Medium);
        }
    }
}

#[test]
fn then_a_number_too_large() {
    for sizes in SIZES {
        for number in [MAX_NUMBER + 1, u64::MAX] {
            refuses(Identity { number, ..IDENTITY }, &used(sizes), &vec![0; length(sizes)], Refusal::Number);
        }
        let identity = Identity { number: MAX_NUMBER, ..IDENTITY };
        assert!(Device::make(identity, &mut used(sizes), &vec![0; length(sizes)]).is_ok());
    }
}

/// The limit holds for each unit, and number 11 asks their sum: up to four times the limit.
#[test]
fn four_units_of_the_largest_size_are_made() {
    let sizes = [LIMIT; 4];
    let memory = vec![0; 4 * LIMIT as usize * BLOCK + BLOCK];
    assert!(Device::make(IDENTITY, &mut table(&sizes), &memory[BLOCK..]).is_ok());
    for other in [LIMIT as usize * BLOCK, memory.len() - 2 * BLOCK, memory.len()] {
        refuses(IDENTITY, &table(&sizes), &memory[..other], Refusal::Medium);
    }
}

/// What a refused making leaves is a record that fits with every table that fits: of collector 0, as if made.
#[test]
fn the_record_of_zeros_fits() {
    for sizes in SIZES {
        assert!(!refused_with(&Record::ZERO, &table(sizes)));
        let identity = Identity { number: 0, vendor: 0, product: 0, release: 0 };
        let made = Device::make(identity, &mut table(sizes), &vec![0; length(sizes)]).unwrap();
        assert_eq!(made.to_record(), Record::ZERO);
    }
    assert!(unfit().iter().all(|units| refused_with(&Record::ZERO, units)));
}
