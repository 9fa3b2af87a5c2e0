//! Write switches of several units (document 02, A7): the event names its unit, and number 18 is the last check.

use crate::bench::{block10, Bench};
use crate::sense_data::{other, NONE, WRITE_PROTECTED};
use crate::several_units::{each_unit, request, DROPS, MASS_STORAGE_RESET, SET_NO_CONFIGURATION, SIZES};
use ordinary::device::{Answer, Refusal};
use ordinary::record::{flag, Record};
use ordinary::unit::Unit;

const OPEN: u8 = 0;
const CLOSED: u8 = 1;

/// A name, and how a configured device gets there; a command is for the bench's unit.
type State = (&'static str, fn(&mut Bench));

const STATES: [State; 9] = [
    ("unconfigured", |bench| request(bench, SET_NO_CONFIGURATION)),
    ("wrapper due", |_| {}),
    ("bulk-in halted", |bench| request(bench, [0x02, 0x03, 0, 0, 0x81, 0, 0, 0])),
    ("bulk-out halted", |bench| request(bench, [0x02, 0x03, 0, 0, 0x02, 0, 0, 0])),
    ("locked", |bench| assert_eq!(bench.send(&[0; 30]), Answer::Stall)),
    ("Write's data due", |bench| {
        bench.command(512, false, &block10(0x2A, 0, 1));
        assert_eq!(bench.send(&[0xAB; 64]), Answer::Ack);
    }),
    ("Read's data due", |bench| bench.command(512, true, &block10(0x28, 0, 1))),
    ("Mode Sense's data due", |bench| bench.command(4, true, &[0x1A, 0, 0x3F, 0, 4, 0])),
    ("status due", |bench| bench.command(0, false, &block10(0x28, 99, 1))),
];

/// A bench for each unit of each table in each state.
fn each_state() -> impl Iterator<Item = (&'static str, Bench)> {
    STATES.into_iter().flat_map(|(name, reach)| {
        each_unit().map(move |mut bench| {
            reach(&mut bench);
            (name, bench)
        })
    })
}

fn positions(bench: &Bench) -> Vec<u8> {
    bench.units.iter().map(|unit| unit.write_switch).collect()
}

/// The record, the other units and all else of the unit stay.
#[test]
fn the_event_moves_its_unit_s_switch_alone() {
    for (name, mut bench) in each_state() {
        let record = bench.record();
        for unit in 0..bench.units.len() {
            for position in [CLOSED, CLOSED, OPEN, OPEN, CLOSED] {
                let mut expected = bench.units.clone();
                expected[unit] = Unit { write_switch: position, ..expected[unit] };
                assert_eq!(bench.turn(position, unit as u8), Answer::Ack, "{name}, unit {unit}");
                assert_eq!((bench.record(), &bench.units), (record, &expected), "{name}, unit {unit}");
            }
        }
        assert_eq!(positions(&bench), vec![CLOSED; bench.units.len()]);
    }
}

/// In every state, with each position; nothing changes.
#[test]
fn a_unit_beyond_the_table_is_number_18() {
    for (name, mut bench) in each_state() {
        let (record, units, medium) = (bench.record(), bench.units.clone(), bench.medium.clone());
        for unit in bench.units.len() as u8..=0xFF {
            for position in [OPEN, CLOSED] {
                assert_eq!(bench.turn(position, unit), Answer::Refused(Refusal::Unit), "{name}, unit {unit}");
            }
        }
        assert_eq!((bench.record(), bench.units, bench.medium), (record, units, medium), "{name}");
    }
    assert_eq!(Answer::Refused(Refusal::Unit).number(), 18);
}

/// A position over 1 is number 10 whether or not the unit is in the table.
#[test]
fn a_position_that_there_is_not_comes_first() {
    for (name, mut bench) in each_state() {
        let (record, units) = (bench.record(), bench.units.clone());
        for position in [2, 3, 0x80, 0x81, 0xFE, 0xFF] {
            for unit in [0, units.len() as u8 - 1, units.len() as u8, 4, 0xFF] {
                let answer = bench.turn(position, unit);
                assert_eq!(answer, Answer::Refused(Refusal::Record), "{name}, {position}, unit {unit}");
            }
        }
        assert_eq!((bench.record(), bench.units), (record, units), "{name}");
    }
}

/// A record or a table that does not fit is number 10 for every unit.
#[test]
fn a_record_that_does_not_fit_comes_first() {
    for bench in each_unit() {
        let last = bench.units.len() - 1;
        let mut damaged = bench.units.clone();
        damaged[last].write_switch = 2;
        let record = Record { flags: flag::LOCKED, ..bench.record() };
        for (record, units) in [(record, bench.units.clone()), (bench.record(), damaged)] {
            let mut unfit = Bench::of(&record, &units);
            for unit in [0, last as u8, last as u8 + 1, 0xFF] {
                for position in [OPEN, CLOSED] {
                    assert_eq!(unfit.turn(position, unit), Answer::Refused(Refusal::Record), "unit {unit}");
                }
            }
            assert_eq!((unfit.record(), unfit.units), (record, units));
        }
    }
}

/// A Write fails exactly in the unit whose switch is closed.
#[test]
fn a_write_looks_at_its_own_unit_s_switch() {
    for mut bench in each_unit() {
        bench.set_switch(CLOSED);
        let (closed, before) = (bench.unit, bench.medium.clone());
        bench.command(0, false, &block10(0x2A, 0, 1));
        assert_eq!(bench.status(), (0, 1));
        assert_eq!(bench.sense_data(), other(WRITE_PROTECTED));
        assert!(bench.medium == before);
        for unit in (0..bench.units.len() as u8).filter(|unit| *unit != closed) {
            bench.unit = unit;
            bench.command(512, false, &block10(0x2A, 0, 1));
            (0..8).for_each(|_| assert_eq!(bench.send(&[unit + 1; 64]), Answer::Ack));
            assert_eq!(bench.status(), (0, 0), "unit {unit}, {closed} closed");
            assert_eq!(bench.sense_data(), other(NONE));
            let start = bench.units[usize::from(unit)].first as usize * 512;
            assert_eq!(bench.medium[start..start + 512], [unit + 1; 512]);
        }
    }
}

/// All others are closed: the one open unit still takes its Write.
#[test]
fn a_write_passes_where_only_its_unit_is_open() {
    for mut bench in each_unit() {
        let open = bench.unit;
        for unit in (0..bench.units.len() as u8).filter(|unit| *unit != open) {
            assert_eq!(bench.turn(CLOSED, unit), Answer::Ack);
        }
        bench.command(512, false, &block10(0x2A, 0, 1));
        (0..8).for_each(|_| assert_eq!(bench.send(&[0xAB; 64]), Answer::Ack));
        assert_eq!(bench.status(), (0, 0), "unit {open}");
    }
}

/// Its own unit's or another's: a Write under way goes on.
#[test]
fn a_write_under_way_goes_on() {
    for moved in 0..4 {
        for unit in 0..4 {
            let mut bench = Bench { unit, ..Bench::units(SIZES[3]) };
            bench.command(512, false, &block10(0x2A, 1, 1));
            for packet in 0..8 {
                assert_eq!(bench.turn(CLOSED, moved), Answer::Ack);
                assert_eq!(bench.send(&[packet; 64]), Answer::Ack);
            }
            assert_eq!(bench.status(), (0, 0), "unit {unit}, {moved} closed");
        }
    }
}

#[test]
fn no_drop_moves_any() {
    for (name, drop) in DROPS {
        for mut bench in each_unit() {
            bench.set_switch(CLOSED);
            let kept = positions(&bench);
            assert_eq!(kept.iter().filter(|position| **position == CLOSED).count(), 1);
            drop(&mut bench);
            assert_eq!(positions(&bench), kept, "{name}");
        }
    }
}

/// Mode Sense's reply is of its own unit, as its wrapper found it.
#[test]
fn mode_sense_keeps_what_its_wrapper_found() {
    for mut bench in each_unit() {
        bench.set_switch(CLOSED);
        bench.command(4, true, &[0x1A, 0, 0x3F, 0, 4, 0]);
        for unit in 0..bench.units.len() as u8 {
            assert_eq!(bench.turn(if unit == bench.unit { OPEN } else { CLOSED }, unit), Answer::Ack);
        }
        assert_eq!(bench.ask(), Ok(vec![0x03, 0x00, 0x80, 0x00]));
        assert_eq!(bench.status(), (0, 0));
        request(&mut bench, MASS_STORAGE_RESET);
        bench.sends(4, &[0x1A, 0, 0x3F, 0, 4, 0], &[0x03, 0x00, 0x00, 0x00]);
    }
}
