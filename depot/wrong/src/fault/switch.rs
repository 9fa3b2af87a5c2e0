//! Faults of the write switch (document 02, A4).

use super::{chosen, own, own_mut, Fault, BLOCK, COMMAND, WRAPPER};
use crate::record::{flag, stage, Record};
use crate::scsi::{code, Sense};
use crate::switch::Switch;
use crate::unit::Unit;

/// Mode Sense's third byte, whose bit 7 says that the medium is write protected.
const DEVICE_SPECIFIC: usize = 2;

fn open(units: &mut [Unit]) {
    units.iter_mut().for_each(|unit| unit.write_switch = Switch::Open as u8);
}

pub fn bus_reset(units: &mut [Unit]) {
    if chosen() == Fault::SwitchBusReset {
        open(units);
    }
}

pub fn control(units: &mut [Unit], setup: &[u8]) {
    if chosen() == Fault::SwitchStorageReset && setup[..2] == [0x21, 0xFF] {
        open(units);
    }
}

/// A switch was turned. A Write that is cut ends as one that fails at its wrapper: a halt, and what is left is the residue.
pub fn turned(record: &mut Record, units: &mut [Unit]) {
    if chosen() == Fault::SwitchCuts && record.stage == stage::DATA_OUT && own(record, units).closed() {
        record.stage = stage::FAILED;
        (record.place, record.left, record.value, record.part) = (0, 0, 0, [0; BLOCK]);
        record.flags |= flag::HALT_OUT;
        own_mut(record, units).set_sense(Sense::WRITE_PROTECTED);
    }
}

/// At the wrapper.
pub fn begin(record: &Record, units: &mut [Unit], packet: &[u8]) {
    let unit = own_mut(record, units);
    let write = packet.len() == WRAPPER && packet[COMMAND] == code::WRITE;
    let out_of_range = record.stage == stage::FAILED && unit.sense().is_out_of_range();
    if chosen() == Fault::SwitchFirst && unit.closed() && write && out_of_range {
        unit.set_sense(Sense::WRITE_PROTECTED);
    }
}

/// At the ask: Mode Sense's bytes go in one packet, and may be cut.
pub fn send(before: &Record, units: &[Unit], sent: &mut [u8]) {
    let shown = match chosen() {
        _ if before.stage != stage::MODE_SENSE => return,
        Fault::SwitchUnseen => false,
        Fault::SwitchAtAsk => own(before, units).closed(),
        _ => return,
    };
    if let Some(byte) = sent.get_mut(DEVICE_SPECIFIC) {
        *byte = if shown { 0x80 } else { 0x00 };
    }
}
