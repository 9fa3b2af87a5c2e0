//! The districts' isolation (document 02, A7): two histories that differ in the contents of the data written to one unit and
//! of its starting blocks alone give equal answers, but for the bytes that a Read of that unit sends, and equal blocks
//! elsewhere.

use crate::bench::{block10, for_unit, wrapper, Bench};
use crate::several_units::{MASS_STORAGE_RESET, SET_CONFIGURATION};
use ordinary::device::{Answer, BLOCK};
use ordinary::record::{stage, Record};
use std::ops::Range;

const SIZES: [u32; 3] = [4, 5, 3];
const EVENTS: usize = 20_000;

/// Numbers from a seed, so that both histories have the same events.
struct Numbers(u64);

impl Numbers {
    fn below(&mut self, bound: u64) -> u64 {
        self.0 = self.0.wrapping_mul(6_364_136_223_846_793_005).wrapping_add(1_442_695_040_888_963_407);
        (self.0 >> 33) % bound
    }
}

/// The bytes of a unit's part.
fn part(unit: u8) -> Range<usize> {
    let first: u32 = SIZES[..usize::from(unit)].iter().sum();
    let end = first + SIZES[usize::from(unit)];
    first as usize * BLOCK..end as usize * BLOCK
}

/// A wrapper for any unit: mostly a Read or a Write, whose length and direction are mostly its data's.
fn some_wrapper(numbers: &mut Numbers) -> Vec<u8> {
    let unit = numbers.below(3) as u8;
    let code = [0x28, 0x28, 0x2A, 0x2A, 0x2A, 0x2F, 0x25][numbers.below(7) as usize];
    let (address, count) = (numbers.below(6) as u32, numbers.below(3) as u16);
    let announced = match numbers.below(8) {
        0 => numbers.below(2000) as u32,
        _ => u32::from(count) * 512,
    };
    match numbers.below(10) {
        0 => for_unit(unit, wrapper(18, true, &[0x03, 0, 0, 0, 18, 0])),
        _ => for_unit(unit, wrapper(announced, code != 0x2A, &block10(code, address, count))),
    }
}

/// What an event of both histories gives.
type Told = (Result<Vec<u8>, Answer>, Record);

/// One event. `salt` is what the history writes to the secret unit.
fn event(bench: &mut Bench, numbers: &mut Numbers, secret: u8, salt: u8) -> Told {
    let before = bench.record();
    let [reading, writing] = [stage::DATA_IN, stage::DATA_OUT].map(|stage| before.stage == stage);
    let own = before.unit == secret;
    let answer = match numbers.below(40) {
        0 => Err(bench.bus_reset()),
        1 => bench.control(MASS_STORAGE_RESET),
        2 => Err(bench.turn(numbers.below(2) as u8, numbers.below(4) as u8)),
        3 => Err(bench.send(&some_wrapper(numbers))),
        _ if !before.configured() => bench.control(SET_CONFIGURATION),
        4..=6 => bench.control([0x02, 0x01, 0, 0, 0x81, 0, 0, 0]),
        7..=9 => bench.control([0x02, 0x01, 0, 0, 0x02, 0, 0, 0]),
        10 if writing => Err(bench.send(&[salt; 20])),
        _ if writing => {
            let content = numbers.below(256) as u8;
            Err(bench.send(&[if own { salt ^ content } else { content }; 64]))
        }
        _ if before.stage == stage::READY => Err(bench.send(&some_wrapper(numbers))),
        _ => bench.ask().map(|bytes| if reading && own { vec![0; bytes.len()] } else { bytes }),
    };
    (answer, Record { part: [0; BLOCK], ..bench.record() })
}

/// The bytes outside a unit's part.
fn outside(bench: &Bench, unit: u8) -> [&[u8]; 2] {
    [&bench.medium[..part(unit).start], &bench.medium[part(unit).end..]]
}

#[test]
fn a_unit_s_contents_are_not_told_by_others() {
    for secret in 0..3 {
        let mut numbers = Numbers(u64::from(secret));
        let mut histories = [0x00, 0xFF].map(|salt| {
            let mut bench = Bench::units(&SIZES);
            bench.medium[part(secret)].fill(salt);
            (bench, salt)
        });
        let mut stored = 0;
        for at in 0..EVENTS {
            let seed = numbers.0;
            let told = histories.each_mut().map(|(bench, salt)| {
                numbers.0 = seed;
                event(bench, &mut numbers, secret, *salt)
            });
            assert_eq!(told[0], told[1], "event {at}, unit {secret}");
            let [(a, _), (b, _)] = &histories;
            assert_eq!(a.units, b.units, "event {at}, unit {secret}");
            assert!(outside(a, secret) == outside(b, secret), "event {at}, unit {secret}");
            stored += usize::from(a.medium[part(secret)] != b.medium[part(secret)]);
        }
        assert!(stored > EVENTS / 2, "the two histories were mostly the same");
    }
}
