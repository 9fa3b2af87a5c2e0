//! Senses of several units (document 02, A7): a command sets, and Request Sense reads and clears, its own unit's alone;
//! a command drop clears all.

use crate::bench::{block10, for_unit, wrapper, Bench};
use crate::commands::nine;
use crate::sense_data::{other, range_failure, DATA_PHASE, FIELD, NONE, OPERATION, WRITE_PROTECTED};
use crate::several_units::{each_unit, request, DROPS, MASS_STORAGE_RESET, SET_CONFIGURATION, SIZES};
use ordinary::device::Answer;
use ordinary::unit::Unit;

/// The senses that `failed` leaves, by unit.
const LEFT: [([u8; 3], u32); 4] =
    [([0x05, 0x21, 0x00], 40), (OPERATION, 0), (FIELD, 0), (WRITE_PROTECTED, 0)];

fn sense_data(unit: u8) -> [u8; 18] {
    match unit {
        0 => range_failure(40),
        _ => other(LEFT[usize::from(unit)].0),
    }
}

/// Each unit has failed in its own way.
fn failed(sizes: &[u32]) -> Bench {
    let mut bench = Bench::units(sizes);
    let [mut field, code] = [block10(0x28, 0, 1), block10(0xEE, 0, 0)];
    field[1] = 0x80;
    for (unit, block) in (0..sizes.len() as u8).zip([block10(0x2F, 40, 1), code, field, block10(0x2A, 0, 0)])
    {
        bench.unit = unit;
        bench.set_switch(u8::from(unit == 3));
        bench.command(0, false, &block);
        assert_eq!(bench.status(), (0, 1), "{unit}");
        bench.set_switch(0);
    }
    bench
}

/// All units' senses.
fn all(bench: &Bench) -> Vec<([u8; 3], u32)> {
    let sense = |unit: &Unit| ([unit.sense_key, unit.sense_asc, unit.sense_ascq], unit.sense_information);
    bench.units.iter().map(sense).collect()
}

/// All units' senses as `failed` leaves them, but for one unit's.
fn but(count: usize, unit: u8, sense: ([u8; 3], u32)) -> Vec<([u8; 3], u32)> {
    let mut senses = LEFT[..count].to_vec();
    senses[usize::from(unit)] = sense;
    senses
}

#[test]
fn each_unit_has_its_own() {
    for sizes in SIZES {
        assert_eq!(all(&failed(sizes)), LEFT[..sizes.len()]);
    }
}

/// Whichever unit is asked first: its own sense is sent and cleared, and the others' stay until they are asked.
#[test]
fn request_sense_reads_and_clears_its_own() {
    for sizes in SIZES {
        let count = sizes.len() as u8;
        for turn in 0..count {
            let mut bench = failed(sizes);
            for unit in (0..count).map(|unit| (unit + turn) % count) {
                bench.unit = unit;
                assert_eq!(bench.sense_data(), sense_data(unit), "{unit} of {sizes:?}");
                assert_eq!(bench.sense_data(), other(NONE), "{unit} of {sizes:?}");
            }
        }
    }
}

/// It is cleared at the wrapper, cut or not, before its bytes are taken; the others' stay.
#[test]
fn the_wrapper_clears_its_own() {
    for sizes in SIZES {
        for unit in 0..sizes.len() as u8 {
            for length in [0, 1, 17, 18, 255] {
                let mut bench = Bench { unit, ..failed(sizes) };
                bench.command(18, true, &[0x03, 0, 0, 0, length, 0]);
                assert_eq!(all(&bench), but(sizes.len(), unit, (NONE, 0)), "{unit} of {sizes:?}");
            }
        }
    }
}

#[test]
fn a_passed_command_clears_its_own() {
    for sizes in SIZES {
        for unit in 0..sizes.len() as u8 {
            for command in nine(0) {
                let mut bench = Bench { unit, ..failed(sizes) };
                command.begin(&mut bench);
                command.pass(&mut bench);
                assert_eq!(all(&bench), but(sizes.len(), unit, (NONE, 0)), "{:02X?}", command.block);
            }
        }
    }
}

#[test]
fn a_failed_command_sets_its_own() {
    for sizes in SIZES {
        for unit in 0..sizes.len() as u8 {
            let mut bench = Bench { unit, ..failed(sizes) };
            bench.command(0, false, &block10(0x28, 77, 1));
            let senses = but(sizes.len(), unit, ([0x05, 0x21, 0x00], 77));
            assert_eq!(all(&bench), senses, "{unit} of {sizes:?}");
            assert_eq!(bench.status(), (0, 1));
            assert_eq!(all(&bench), senses, "{unit} of {sizes:?}");
        }
    }
}

/// The writing unit's, at whichever packet of the Write; each length but 64.
#[test]
fn data_of_a_wrong_length_sets_the_writing_unit_s() {
    for sizes in SIZES {
        for unit in 0..sizes.len() as u8 {
            for (packets, length) in [(0, 0), (0, 63), (1, 1), (7, 31), (7, 10)] {
                let mut bench = Bench { unit, ..failed(sizes) };
                bench.command(512, false, &block10(0x2A, 0, 1));
                (0..packets).for_each(|_| assert_eq!(bench.send(&[0xAB; 64]), Answer::Ack));
                assert_eq!(bench.send(&[0xAB; 64][..length]), Answer::Ack);
                let senses = but(sizes.len(), unit, (DATA_PHASE, 0));
                assert_eq!(all(&bench), senses, "{unit} of {sizes:?}");
                assert_eq!(bench.status(), (512, 2));
                assert_eq!(all(&bench), senses, "{unit} of {sizes:?}");
            }
        }
    }
}

/// Found at the wrapper, it changes no unit's sense, nor does the lock that its status brings.
#[test]
fn a_phase_error_changes_none() {
    for sizes in SIZES {
        for unit in 0..sizes.len() as u8 {
            for (announced, data_in, block) in [
                (0, true, block10(0x25, 0, 0)),
                (7, true, block10(0x25, 0, 0)),
                (8, false, block10(0x25, 0, 0)),
                (512, true, block10(0x2A, 0, 1)),
                (511, false, block10(0x2A, 0, 1)),
            ] {
                let mut bench = Bench { unit, ..failed(sizes) };
                bench.command(announced, data_in, &block);
                assert_eq!(all(&bench), LEFT[..sizes.len()], "{unit} of {sizes:?}");
                bench.clear_halt(0x81);
                assert_eq!(bench.status(), (announced, 2));
                assert_eq!(all(&bench), LEFT[..sizes.len()], "{unit} of {sizes:?}");
            }
        }
    }
}

#[test]
fn the_lock_changes_none() {
    for sizes in SIZES {
        for unit in [sizes.len() as u8, 15, 16, 0xF0] {
            let mut bench = failed(sizes);
            assert_eq!(bench.send(&for_unit(unit, wrapper(0, false, &[0; 6]))), Answer::Stall);
            assert_eq!(all(&bench), LEFT[..sizes.len()], "{unit} of {sizes:?}");
        }
    }
}

/// A name, and how a bench gets there from `failed`.
type State = (&'static str, fn(&mut Bench));

/// In each, two or more units of a table of three keep their senses.
const STATES: [State; 6] = [
    ("wrapper due", |_| {}),
    ("locked", |bench| assert_eq!(bench.send(&[0; 30]), Answer::Stall)),
    ("Write's data due", |bench| {
        bench.command(512, false, &block10(0x2A, 0, 1));
        assert_eq!(bench.send(&[0xAB; 64]), Answer::Ack);
    }),
    ("Read's data due", |bench| bench.command(512, true, &block10(0x28, 0, 1))),
    ("reply due", |bench| bench.command(18, true, &[0x03, 0, 0, 0, 18, 0])),
    ("status due", |bench| bench.command(0, false, &block10(0x28, 50, 1))),
];

/// From every state, with the command in each unit.
#[test]
fn each_drop_clears_all() {
    for (name, drop) in DROPS {
        for (state, reach) in STATES {
            for sizes in SIZES {
                for unit in 0..sizes.len() as u8 {
                    let mut bench = Bench { unit, ..failed(sizes) };
                    reach(&mut bench);
                    drop(&mut bench);
                    assert_eq!(
                        all(&bench),
                        vec![(NONE, 0); sizes.len()],
                        "{name}, {state}, {unit} of {sizes:?}"
                    );
                }
            }
        }
    }
}

/// What Request Sense then sends, for each unit.
#[test]
fn after_a_drop_each_unit_has_none() {
    for sizes in SIZES {
        let mut bench = failed(sizes);
        request(&mut bench, MASS_STORAGE_RESET);
        for unit in 0..sizes.len() as u8 {
            bench.unit = unit;
            assert_eq!(bench.sense_data(), other(NONE), "{unit} of {sizes:?}");
        }
    }
}

/// Requests that drop nothing, events out of turn and the switch.
#[test]
fn what_runs_no_command_changes_none() {
    for sizes in SIZES {
        let mut bench = failed(sizes);
        request(&mut bench, [0x02, 0x03, 0, 0, 0x81, 0, 0, 0]);
        bench.clear_halt(0x81);
        assert_eq!(bench.control([0xA1, 0xFE, 0, 0, 0, 0, 1, 0]), Ok(vec![sizes.len() as u8 - 1]));
        assert_eq!(bench.ask(), Err(Answer::Nak));
        bench.set_switch(1);
        assert_eq!(all(&bench), LEFT[..sizes.len()], "{sizes:?}");
    }
}

/// The reply keeps the sense that its wrapper found, whatever other units' are.
#[test]
fn the_reply_is_of_the_unit_s_own() {
    for mut bench in each_unit() {
        bench.command(0, false, &block10(0x2F, 0x0102_0304, 1));
        assert_eq!(bench.status(), (0, 1));
        bench.command(18, true, &[0x03, 0, 0, 0, 18, 0]);
        let record = bench.record();
        assert_eq!((record.unit, record.value, record.extra), (bench.unit, 0x00_21_05, 0x0102_0304));
        for unit in &mut bench.units {
            (unit.sense_key, unit.sense_asc, unit.sense_information) = (0x06, 0x29, 7);
        }
        assert_eq!(bench.ask().unwrap(), range_failure(0x0102_0304));
        assert_eq!(bench.status(), (0, 0));
        request(&mut bench, SET_CONFIGURATION);
    }
}
