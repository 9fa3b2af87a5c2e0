//! Several units (document 02, A7): which ones there are, and what each tells of itself.

use crate::bench::{block10, for_unit, wrapper, Bench};
use crate::commands::nine;
use crate::sense_data::{other, range_failure, NONE};
use ordinary::device::Answer;
use ordinary::record::{flag, Record};

/// Tables of one to four units, by their sizes.
pub const SIZES: [&[u32]; 4] = [&[5], &[3, 7], &[4, 1, 6], &[2, 8, 3, 5]];
pub const SET_CONFIGURATION: [u8; 8] = [0x00, 0x09, 1, 0, 0, 0, 0, 0];
pub const SET_NO_CONFIGURATION: [u8; 8] = [0x00, 0x09, 0, 0, 0, 0, 0, 0];
pub const MASS_STORAGE_RESET: [u8; 8] = [0x21, 0xFF, 0, 0, 0, 0, 0, 0];
const GET_MAX_LUN: [u8; 8] = [0xA1, 0xFE, 0, 0, 0, 0, 1, 0];

/// A bench for each unit of each table, its commands for that unit.
pub fn each_unit() -> impl Iterator<Item = Bench> {
    SIZES
        .into_iter()
        .flat_map(|sizes| (0..sizes.len() as u8).map(move |unit| Bench { unit, ..Bench::units(sizes) }))
}

/// A name, and what drops the command.
pub type Drop = (&'static str, fn(&mut Bench));

pub const DROPS: [Drop; 4] = [
    ("bus reset", |bench| assert_eq!(bench.bus_reset(), Answer::Ack)),
    ("Mass Storage Reset", |bench| request(bench, MASS_STORAGE_RESET)),
    ("Set Configuration 1", |bench| request(bench, SET_CONFIGURATION)),
    ("Set Configuration 0", |bench| request(bench, SET_NO_CONFIGURATION)),
];

/// A control request that must be done.
pub fn request(bench: &mut Bench, setup: [u8; 8]) {
    assert_eq!(bench.control(setup), Ok(vec![]));
}

#[test]
fn get_max_lun_answers_the_highest_unit() {
    for (sizes, highest) in SIZES.into_iter().zip(0..) {
        let mut bench = Bench::units(sizes);
        assert_eq!(bench.control(GET_MAX_LUN), Ok(vec![highest]));
        for (at, byte) in [(2, 1), (4, 1), (6, 0), (6, 2), (7, 1)] {
            let mut near = GET_MAX_LUN;
            near[at] = byte;
            assert_eq!(bench.control(near), Err(Answer::Stall), "{near:02X?}");
        }
        request(&mut bench, SET_NO_CONFIGURATION);
        assert_eq!(bench.control(GET_MAX_LUN), Err(Answer::Stall));
    }
}

/// Bits 4 to 7 of byte 13 make a wrapper unreadable, whatever the other bits name.
#[test]
fn a_wrapper_is_accepted_for_the_table_s_units_alone() {
    for sizes in SIZES {
        for unit in 0..=0xFF {
            let mut bench = Bench::units(sizes);
            let answer = bench.send(&for_unit(unit, wrapper(0, false, &[0; 6])));
            let accepted = usize::from(unit) < sizes.len();
            assert_eq!(answer, if accepted { Answer::Ack } else { Answer::Stall }, "{unit} of {sizes:?}");
            assert_eq!(bench.record().locked(), !accepted, "{unit} of {sizes:?}");
        }
    }
}

/// The lock is the one of any broken wrapper: both pipes halted, Clear Feature without effect, ended by a drop.
#[test]
fn a_unit_beyond_the_table_locks() {
    let good = wrapper(0, false, &[0; 6]);
    for sizes in SIZES {
        let mut bench = Bench::units(sizes);
        assert_eq!(bench.send(&for_unit(sizes.len() as u8, good.clone())), Answer::Stall);
        bench.clear_halt(0x81);
        bench.clear_halt(0x02);
        assert_eq!((bench.send(&good), bench.ask()), (Answer::Stall, Err(Answer::Stall)), "{sizes:?}");
        assert_eq!(bench.record().unit, 0, "{sizes:?}");
        request(&mut bench, MASS_STORAGE_RESET);
        bench.clear_halt(0x81);
        bench.clear_halt(0x02);
        assert_eq!(bench.send(&good), Answer::Ack, "{sizes:?}");
        assert_eq!(bench.status(), (0, 0), "{sizes:?}");
    }
}

/// No command is in hand then, whichever unit the broken wrapper named.
#[test]
fn a_broken_wrapper_leaves_no_unit() {
    for mut bench in each_unit() {
        let mut broken = for_unit(bench.unit, wrapper(36, true, &[0x12, 0, 0, 0, 36]));
        let locked = Record {
            flags: flag::CONFIGURED | flag::HALT_IN | flag::HALT_OUT | flag::LOCKED,
            ..bench.record()
        };
        assert_eq!(bench.send(&broken), Answer::Stall);
        assert_eq!(bench.record(), locked);
        request(&mut bench, SET_CONFIGURATION);
        broken[13] = bench.units.len() as u8 + 1;
        broken[14] = 6;
        assert_eq!(bench.send(&broken), Answer::Stall);
        assert_eq!(bench.record(), locked);
    }
}

#[test]
fn each_command_passes_for_each_unit() {
    for mut bench in each_unit() {
        for command in nine(0) {
            command.begin(&mut bench);
            assert_eq!(bench.record().unit, bench.unit);
            command.pass(&mut bench);
            assert_eq!(bench.sense_data(), other(NONE), "{:02X?}", command.block);
        }
    }
}

#[test]
fn read_capacity_tells_the_unit_s_own_size() {
    for sizes in SIZES {
        for (unit, blocks) in (0..).zip(sizes) {
            let mut bench = Bench { unit, ..Bench::units(sizes) };
            let reply = [0, 0, 0, *blocks as u8 - 1, 0, 0, 2, 0];
            bench.sends(8, &[0x25, 0, 0, 0, 0, 0, 0, 0, 0, 0], &reply);
        }
    }
}

#[test]
fn mode_sense_shows_the_unit_s_own_switch() {
    for mut bench in each_unit() {
        bench.set_switch(1);
        let (count, closed) = (bench.units.len() as u8, bench.unit);
        for unit in 0..count {
            bench.unit = unit;
            let third = if unit == closed { 0x80 } else { 0x00 };
            bench.sends(4, &[0x1A, 0, 0x3F, 0, 4, 0], &[0x03, 0x00, third, 0x00]);
        }
    }
}

/// Standard data and pages are the collector's.
#[test]
fn inquiry_is_the_same_for_every_unit() {
    for mut bench in each_unit() {
        bench.sends(
            36,
            &[0x12, 0, 0, 0, 36, 0],
            b"\x00\x80\x05\x02\x1F\x00\x00\x00COLLECT METER EXPORT    0100",
        );
        bench.sends(7, &[0x12, 1, 0x00, 0, 36, 0], b"\x00\x00\x00\x03\x00\x80\x83");
        bench.sends(16, &[0x12, 1, 0x80, 0, 36, 0], b"\x00\x80\x00\x0C000000000042");
        let page = b"\x00\x83\x00\x18\x02\x01\x00\x14COLLECT 000000000042";
        bench.sends(28, &[0x12, 1, 0x83, 0, 36, 0], page);
    }
}

/// Block numbers are the unit's own, and so is the first block outside it: that the medium goes on behind it, or
/// before it, changes nothing.
#[test]
fn ranges_end_with_the_unit() {
    for sizes in SIZES {
        for (unit, blocks) in (0..).zip(sizes.iter().copied()) {
            let mut bench = Bench { unit, ..Bench::units(sizes) };
            for code in [0x28, 0x2A, 0x2F] {
                bench.command(0, false, &block10(code, blocks, 0));
                assert_eq!(bench.status(), (0, 0), "{code:02X}, {unit} of {sizes:?}");
                for (address, count, first) in [
                    (blocks, 1, blocks),
                    (blocks - 1, 2, blocks),
                    (0, blocks as u16 + 1, blocks),
                    (40, 0, 40),
                ] {
                    bench.command(0, false, &block10(code, address, count));
                    assert_eq!(bench.status(), (0, 1), "{code:02X}, {unit} of {sizes:?}");
                    assert_eq!(bench.sense_data(), range_failure(first), "{code:02X}, {unit} of {sizes:?}");
                }
            }
            bench.command(0, false, &block10(0x2F, 0, blocks as u16));
            assert_eq!(bench.status(), (0, 0));
        }
    }
}

/// It is 0 again once the status is taken, that of a failure and of a phase error too.
#[test]
fn the_record_has_the_unit_until_the_status() {
    for mut bench in each_unit() {
        let unit = bench.unit;
        let mut ends = |announced, block: &[u8], status| {
            bench.command(announced, true, block);
            assert_eq!(bench.record().unit, unit);
            bench.clear_halt(0x81);
            assert_eq!(bench.record().unit, unit);
            assert_eq!(bench.status(), (announced, status));
            assert_eq!(bench.record().unit, 0);
        };
        ends(0, &[0; 6], 0);
        ends(7, &[0; 6], 0);
        ends(7, &block10(0x28, 99, 1), 1);
        ends(7, &block10(0x28, 0, 1), 2);
    }
}

#[test]
fn a_drop_forgets_the_unit() {
    for (name, drop) in DROPS {
        for mut bench in each_unit() {
            bench.command(1024, false, &block10(0x2A, 0, 1));
            assert_eq!(bench.send(&[0xAB; 64]), Answer::Ack);
            assert_eq!(bench.record().unit, bench.unit);
            drop(&mut bench);
            assert_eq!(bench.record().unit, 0, "{name}");
        }
    }
}

/// A drop leaves what a fresh collector's has, whichever unit's command it cut.
#[test]
fn a_bus_reset_leaves_a_fresh_record() {
    for mut bench in each_unit() {
        let fresh = Record { flags: 0, ..bench.record() };
        let units = bench.units.clone();
        bench.command(18, true, &[0x03, 0, 0, 0, 18, 0]);
        assert_eq!(bench.bus_reset(), Answer::Ack);
        assert_eq!((bench.record(), &bench.units), (fresh, &units));
    }
}
