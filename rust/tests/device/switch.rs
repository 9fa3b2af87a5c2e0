//! The write switch (document 02, A4): the event that moves it, what Mode Sense shows of it, and that nothing else moves
//! it.

use crate::bench::{block10, Bench};
use ordinary::device::{Answer, Refusal};
use ordinary::record::Record;
use ordinary::unit::Unit;

pub const OPEN: u8 = 0;
pub const CLOSED: u8 = 1;
pub const MODE_SENSE: [u8; 6] = [0x1A, 0, 0x3F, 0, 4, 0];
const SHOWN_OPEN: [u8; 4] = [0x03, 0x00, 0x00, 0x00];
const SHOWN_CLOSED: [u8; 4] = [0x03, 0x00, 0x80, 0x00];
const SET_CONFIGURATION: [u8; 8] = [0x00, 0x09, 1, 0, 0, 0, 0, 0];
const SET_NO_CONFIGURATION: [u8; 8] = [0x00, 0x09, 0, 0, 0, 0, 0, 0];
const MASS_STORAGE_RESET: [u8; 8] = [0x21, 0xFF, 0, 0, 0, 0, 0, 0];

/// A name, and how a configured device gets there.
type Step = (&'static str, fn(&mut Bench));

/// The switch is open until a state is reached, so that there is one with a Write under way.
const STATES: [Step; 13] = [
    ("unconfigured", |bench| request(bench, SET_NO_CONFIGURATION)),
    ("wrapper due", |_| {}),
    ("bulk-in halted", |bench| request(bench, [0x02, 0x03, 0, 0, 0x81, 0, 0, 0])),
    ("bulk-out halted", |bench| request(bench, [0x02, 0x03, 0, 0, 0x02, 0, 0, 0])),
    ("locked", |bench| assert_eq!(bench.send(&[0; 30]), Answer::Stall)),
    ("a sense held", |bench| {
        bench.command(0, false, &block10(0x2F, 300, 1));
        assert_eq!(bench.status(), (0, 1));
    }),
    ("Write's data due", |bench| {
        bench.command(1024, false, &block10(0x2A, 3, 2));
        (0..11).for_each(|_| assert_eq!(bench.send(&[0xAB; 64]), Answer::Ack));
    }),
    ("Read's data due", |bench| {
        bench.command(1024, true, &block10(0x28, 3, 2));
        (0..11).for_each(|_| assert_eq!(bench.ask(), Ok(vec![0; 64])));
    }),
    ("Mode Sense's data due", |bench| bench.command(4, true, &MODE_SENSE)),
    ("Request Sense's data due", |bench| bench.command(18, true, &[0x03, 0, 0, 0, 18, 0])),
    ("passed, status due", |bench| bench.command(0, false, &[0; 6])),
    ("failed, status due", |bench| bench.command(64, false, &block10(0x2A, 300, 1))),
    ("phase error, status due", |bench| bench.command(64, true, &block10(0x2A, 0, 1))),
];

const DROPS: [Step; 4] = [
    ("bus reset", |bench| assert_eq!(bench.bus_reset(), Answer::Ack)),
    ("Mass Storage Reset", |bench| {
        let configured = bench.record().configured();
        let answer = if configured { Ok(vec![]) } else { Err(Answer::Stall) };
        assert_eq!(bench.control(MASS_STORAGE_RESET), answer);
    }),
    ("Set Configuration 1", |bench| request(bench, SET_CONFIGURATION)),
    ("Set Configuration 0", |bench| request(bench, SET_NO_CONFIGURATION)),
];

/// A control request that must be done.
fn request(bench: &mut Bench, setup: [u8; 8]) {
    assert_eq!(bench.control(setup), Ok(vec![]));
}

/// A bench in one of the states.
fn reached(reach: fn(&mut Bench)) -> Bench {
    let mut bench = Bench::new(16);
    reach(&mut bench);
    bench
}

fn position(bench: &Bench) -> u8 {
    bench.units[0].write_switch
}

/// Carries a Mode Sense through.
fn shown(bench: &mut Bench) -> Vec<u8> {
    bench.command(4, true, &MODE_SENSE);
    let reply = bench.ask().unwrap();
    assert_eq!(bench.status(), (0, 0));
    reply
}

#[test]
fn a_collector_is_made_with_the_switch_open() {
    let mut bench = Bench::new(1);
    assert_eq!(position(&bench), OPEN);
    assert_eq!(shown(&mut bench), SHOWN_OPEN);
}

/// It acks in every state, from each position to each, and changes nothing but the position: no sense is set, no halt
/// cleared, no command dropped.
#[test]
fn the_event_sets_it_to_either() {
    for (name, reach) in STATES {
        let mut bench = reached(reach);
        let (record, unit, medium) = (bench.record(), bench.units[0], bench.medium.clone());
        assert_eq!(unit.write_switch, OPEN, "{name}");
        for write_switch in [OPEN, CLOSED, CLOSED, OPEN] {
            bench.set_switch(write_switch);
            assert_eq!((bench.record(), bench.units[0]), (record, Unit { write_switch, ..unit }), "{name}");
            assert_eq!(bench.medium, medium, "{name}");
        }
    }
}

#[test]
fn other_positions_are_number_10() {
    for (name, reach) in STATES {
        for found in [OPEN, CLOSED] {
            let mut bench = reached(reach);
            bench.set_switch(found);
            let before = (bench.record(), bench.units[0]);
            for position in 2..=0xFF {
                let answer = bench.turn(position, 0);
                assert_eq!(answer, Answer::Refused(Refusal::Record), "{name}, {position}");
                assert_eq!((bench.record(), bench.units[0]), before, "{name}, {position}");
            }
        }
    }
}

/// Mode Sense sends at most byte 4 bytes of it.
#[test]
fn mode_sense_shows_it_in_the_third_byte() {
    let mut bench = Bench::new(1);
    for (position, whole) in [(CLOSED, SHOWN_CLOSED), (OPEN, SHOWN_OPEN), (CLOSED, SHOWN_CLOSED)] {
        bench.set_switch(position);
        assert_eq!(shown(&mut bench), whole);
        for length in 0..=0xFF {
            let sent = &whole[..usize::from(length).min(4)];
            bench.sends(255, &[0x1A, 0, 0x3F, 0, length, 0], sent);
        }
    }
}

/// A change counts from the next wrapper: the reply is of the position that the wrapper found.
#[test]
fn mode_sense_s_reply_keeps_what_its_wrapper_found() {
    for (found, whole) in [(OPEN, SHOWN_OPEN), (CLOSED, SHOWN_CLOSED)] {
        for changes in [&[1 - found][..], &[1 - found, found], &[1 - found, found, 1 - found]] {
            let mut bench = Bench::new(1);
            bench.set_switch(found);
            bench.command(64, true, &MODE_SENSE);
            changes.iter().for_each(|position| bench.set_switch(*position));
            assert_eq!(bench.ask().as_deref(), Ok(&whole[..]));
            bench.set_switch(found);
            bench.clear_halt(0x81);
            bench.set_switch(1 - found);
            assert_eq!(bench.status(), (60, 0));
            let other = if found == OPEN { SHOWN_CLOSED } else { SHOWN_OPEN };
            assert_eq!(shown(&mut bench), other);
        }
    }
}

/// From every state: the command is dropped, the position stays. Unconfigured, a Mass Storage Reset stalls.
#[test]
fn no_reset_moves_it() {
    for (state, reach) in STATES {
        for (drop, perform) in DROPS {
            for kept in [OPEN, CLOSED] {
                let mut bench = reached(reach);
                bench.set_switch(kept);
                perform(&mut bench);
                assert_eq!(position(&bench), kept, "{state}, {drop}");
                request(&mut bench, SET_CONFIGURATION);
                let expected = if kept == CLOSED { SHOWN_CLOSED } else { SHOWN_OPEN };
                assert_eq!(shown(&mut bench), expected, "{state}, {drop}");
            }
        }
    }
}

/// A closed switch differs from a fresh device's in the position alone, once all else is dropped.
#[test]
fn a_bus_reset_leaves_the_position_alone() {
    for (name, reach) in STATES {
        let mut bench = reached(reach);
        bench.set_switch(CLOSED);
        assert_eq!(bench.bus_reset(), Answer::Ack);
        let fresh = Bench::new(16);
        assert_eq!(bench.record(), Record { flags: 0, ..fresh.record() }, "{name}");
        assert_eq!(bench.units, [Unit { write_switch: CLOSED, ..fresh.units[0] }], "{name}");
    }
}

/// Requests that drop nothing, commands, the lock and refused events.
#[test]
fn nothing_else_moves_it() {
    for kept in [OPEN, CLOSED] {
        let mut bench = Bench::new(16);
        bench.set_switch(kept);
        for endpoint in [0x81, 0x02] {
            request(&mut bench, [0x02, 0x03, 0, 0, endpoint, 0, 0, 0]);
            bench.clear_halt(endpoint);
        }
        assert_eq!(bench.control([0x80, 0x08, 0, 0, 0, 0, 1, 0]), Ok(vec![1]));
        assert_eq!(bench.control([0x00, 0x05, 5, 0, 0, 0, 0, 0]), Err(Answer::Stall));
        let answer = bench.device.control(&mut bench.units, &[0; 7], &mut [0; 64]);
        assert_eq!(answer, Answer::Refused(Refusal::Setup));
        assert_eq!(bench.ask(), Err(Answer::Nak));
        assert_eq!(bench.send(&[0; 65]), Answer::Refused(Refusal::Packet));
        bench.command(0, false, &[0x1E, 0, 0, 0, 0, 0]);
        assert_eq!(bench.status(), (0, 0));
        bench.fails(0, &[0x1E, 0, 0, 0, 1, 0], [0x05, 0x24, 0x00]);
        assert_eq!(bench.send(&[]), Answer::Stall);
        assert!(bench.record().locked());
        assert_eq!(position(&bench), kept);
        request(&mut bench, SET_NO_CONFIGURATION);
        request(&mut bench, [0x00, 0x05, 5, 0, 0, 0, 0, 0]);
        assert_eq!((bench.send(&[0; 31]), bench.ask()), (Answer::Silent, Err(Answer::Silent)));
        assert_eq!(position(&bench), kept);
    }
}
