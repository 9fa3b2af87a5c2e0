//! A range failure's block goes with its sense, and stays where the sense stays (document 02, A8).

use crate::bench::{block10, wrapper, Bench};
use crate::commands::{nine, Command};
use crate::sense_data::{other, range_failure, DATA_PHASE, FIELD, NONE, OPERATION};
use ordinary::device::{Answer, Refusal};

const BLOCK: u32 = 0x0102_0304;
const SET_CONFIGURATION: [u8; 8] = [0x00, 0x09, 1, 0, 0, 0, 0, 0];
const SET_NO_CONFIGURATION: [u8; 8] = [0x00, 0x09, 0, 0, 0, 0, 0, 0];
const MASS_STORAGE_RESET: [u8; 8] = [0x21, 0xFF, 0, 0, 0, 0, 0, 0];

/// A Verify outside the unit was begun: its status is due.
fn failing() -> Bench {
    let mut bench = Bench::new(16);
    bench.command(0, false, &block10(0x2F, BLOCK, 1));
    bench
}

/// It has failed; the sense tells its block.
fn failed() -> Bench {
    let mut bench = failing();
    assert_eq!(bench.status(), (0, 1));
    bench
}

/// Locked by a wrapper that was not accepted, the sense kept.
fn locked() -> Bench {
    let mut bench = failed();
    assert_eq!(bench.send(&[0; 30]), Answer::Stall);
    bench
}

fn assert_kept(bench: &Bench) {
    assert_eq!(bench.held(), ([0x05, 0x21, 0x00], BLOCK));
}

/// The next wrapper takes the block away, not the data or the status after it.
#[test]
fn a_passed_command_takes_it() {
    for command in nine(3).into_iter().filter(|command| command.block[0] != 0x03) {
        let mut bench = failed();
        command.begin(&mut bench);
        assert_eq!(bench.held(), (NONE, 0), "{:02X?}", command.block);
        command.pass(&mut bench);
        assert_eq!(bench.sense_data(), other(NONE), "{:02X?}", command.block);
    }
}

#[test]
fn a_command_that_fails_otherwise_takes_it() {
    let fields = nine(3).map(|command| (command.with_control(0x01), FIELD));
    let codes = [0x04, 0x29, 0xFF].map(|code| (Command::new(0, false, &[code; 10]), OPERATION));
    for (command, sense) in fields.into_iter().chain(codes) {
        let mut bench = failed();
        bench.command(0, false, &command.block);
        assert_eq!(bench.held(), (sense, 0), "{:02X?}", command.block);
        assert_eq!(bench.status(), (0, 1));
        assert_eq!(bench.sense_data(), other(sense), "{:02X?}", command.block);
    }
}

/// A Write takes it, and its packet of another length sets a sense without a block.
#[test]
fn a_data_phase_error_tells_no_block() {
    let mut bench = failed();
    bench.command(512, false, &block10(0x2A, 0, 1));
    assert_eq!(bench.send(&[0xAB; 10]), Answer::Ack);
    assert_eq!(bench.held(), (DATA_PHASE, 0));
}

/// A name, and what drops the command.
type Cause = (&'static str, fn(&mut Bench));

const CAUSES: [Cause; 4] = [
    ("bus reset", |bench| assert_eq!(bench.bus_reset(), Answer::Ack)),
    ("Mass Storage Reset", |bench| request(bench, MASS_STORAGE_RESET)),
    ("Set Configuration 1", |bench| request(bench, SET_CONFIGURATION)),
    ("Set Configuration 0", |bench| request(bench, SET_NO_CONFIGURATION)),
];

/// A control request that must be done.
fn request(bench: &mut Bench, setup: [u8; 8]) {
    assert_eq!(bench.control(setup), Ok(vec![]));
}

/// From each state that has the sense: a status due, a wrapper due, locked.
#[test]
fn each_drop_takes_it() {
    for (name, drop) in CAUSES {
        for mut bench in [failing(), failed(), locked()] {
            assert_kept(&bench);
            drop(&mut bench);
            assert_eq!(bench.held(), (NONE, 0), "{name}");
            request(&mut bench, SET_CONFIGURATION);
            assert_eq!(bench.sense_data(), other(NONE), "{name}");
        }
    }
}

/// A reset while Request Sense's data is due drops the reply with its block.
#[test]
fn a_reset_drops_the_reply() {
    let mut bench = failed();
    bench.command(18, true, &[0x03, 0, 0, 0, 18, 0]);
    request(&mut bench, MASS_STORAGE_RESET);
    assert_eq!(bench.record().extra, 0);
    assert_eq!(bench.ask(), Err(Answer::Nak));
    assert_eq!(bench.sense_data(), other(NONE));
}

/// Found at the wrapper, it leaves the sense, and so does the lock that its status brings.
#[test]
fn a_phase_error_leaves_it() {
    let request_sense = [0x03, 0, 0, 0, 18, 0];
    let wrong = [
        Command::new(0, true, &[0x12, 0, 0, 0, 36, 0]),
        Command::new(17, true, &request_sense),
        Command::new(0, true, &request_sense),
        Command::new(18, false, &request_sense),
        Command::new(511, true, &block10(0x28, 0, 1)),
        Command::new(512, false, &block10(0x28, 0, 1)),
        Command::new(512, true, &block10(0x2A, 0, 1)),
        Command::new(511, false, &block10(0x2A, 0, 1)),
    ];
    for command in wrong {
        let mut bench = failed();
        command.begin(&mut bench);
        assert_kept(&bench);
        bench.clear_halt(0x81);
        assert_eq!(bench.status(), (command.announced, 2));
        assert!(bench.record().locked());
        assert_kept(&bench);
        assert_eq!(bench.send(&wrapper(18, true, &request_sense)), Answer::Stall);
        assert_kept(&bench);
    }
}

#[test]
fn the_lock_leaves_it() {
    let mut bench = locked();
    assert!(bench.record().locked());
    assert_kept(&bench);
    for endpoint in [0x81, 0x02] {
        bench.clear_halt(endpoint);
        assert_kept(&bench);
    }
}

/// Halts, requests that drop no command, events out of turn and refused ones: the block is told afterwards.
#[test]
fn what_runs_no_command_leaves_it() {
    let mut bench = failed();
    for endpoint in [0x81, 0x02] {
        request(&mut bench, [0x02, 0x03, 0, 0, endpoint, 0, 0, 0]);
    }
    assert_eq!(bench.ask(), Err(Answer::Stall));
    assert_eq!(bench.send(&wrapper(0, false, &[0; 6])), Answer::Stall);
    bench.clear_halt(0x81);
    bench.clear_halt(0x02);
    assert_eq!(bench.ask(), Err(Answer::Nak));
    assert_eq!(bench.send(&[0; 65]), Answer::Refused(Refusal::Packet));
    assert_eq!(bench.control([0x00, 0x05, 5, 0, 0, 0, 0, 0]), Err(Answer::Stall));
    assert_eq!(bench.control([0xA1, 0xFE, 0, 0, 0, 0, 1, 0]), Ok(vec![0]));
    assert_eq!(bench.sense_data(), range_failure(BLOCK));
}
