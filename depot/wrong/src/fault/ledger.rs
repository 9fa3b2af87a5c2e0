//! Faults of the ledger (document 02, A13): statuses that Linux does not look into, and one that comes after a drop.

use super::{chosen, Fault, WRAPPER};
use crate::record::{stage, Record};
use std::sync::Mutex;

/// Where a status wrapper has its tag and its residue, and a command wrapper its tag and the announced length.
const TAG: std::ops::Range<usize> = 4..8;
const RESIDUE: std::ops::Range<usize> = 8..12;
const FLAGS: usize = 12;

/// What the record does not keep: the tag of the command before, that of the latest one, and its direction.
struct Commands {
    before: [u8; 4],
    latest: [u8; 4],
    outward: bool,
}

static COMMANDS: Mutex<Commands> = Mutex::new(Commands { before: [0; 4], latest: [0; 4], outward: false });

/// At the wrapper.
pub fn begin(packet: &[u8]) {
    if packet.len() == WRAPPER {
        let mut commands = COMMANDS.lock().unwrap();
        commands.before = commands.latest;
        commands.latest.copy_from_slice(&packet[TAG]);
        commands.outward = packet[FLAGS] & 0x80 == 0 && packet[RESIDUE] != [0; 4];
    }
}

/// At the ask that hands the status out.
pub fn send(before: &Record, sent: &mut [u8]) {
    let commands = COMMANDS.lock().unwrap();
    let at_wrapper = before.stage == stage::PHASE_ERROR && before.residue == before.announced;
    match chosen() {
        _ if !commands.outward => {}
        Fault::ResidueOut if before.stage == stage::PASSED => sent[RESIDUE].fill(0),
        Fault::ResiduePhase if at_wrapper => sent[RESIDUE].fill(0),
        Fault::TagPhase if at_wrapper => sent[TAG].copy_from_slice(&commands.before),
        _ => {}
    }
}

/// At a request.
pub fn control(before: &Record, record: &mut Record, setup: &[u8]) {
    if chosen() == Fault::StatusKept && setup[..2] == [0x21, 0xFF] && before.status_due() {
        (record.stage, record.unit) = (before.stage, before.unit);
        (record.tag, record.announced, record.residue) = (before.tag, before.announced, before.residue);
    }
}
