//! Faults of the block that a range failure names (document 02, A8), made in the sense data as it goes out.

use super::{chosen, own, Fault, COMMAND, WRAPPER};
use crate::record::{stage, Record};
use crate::unit::Unit;
use std::sync::Mutex;

const OUT_OF_RANGE: u8 = 0x21;
/// Byte 0 of sense data, its bit that says that INFORMATION is one, and the place of INFORMATION.
const FIXED_FORMAT: u8 = 0x70;
const VALID: u8 = 0x80;
const INFORMATION: usize = 3;

/// The address of the last range failure, until Request Sense sends something.
static ADDRESS: Mutex<Option<u32>> = Mutex::new(None);

/// At the wrapper.
pub fn begin(record: &Record, units: &[Unit], packet: &[u8]) {
    if record.stage == stage::FAILED && packet.len() == WRAPPER {
        let address = u32::from_be_bytes(packet[COMMAND + 2..COMMAND + 6].try_into().unwrap());
        *ADDRESS.lock().unwrap() = (own(record, units).sense_asc == OUT_OF_RANGE).then_some(address);
    }
}

/// At the ask: sense data goes in one packet, and may be cut.
pub fn send(before: &Record, units: &[Unit], sent: &mut [u8]) {
    if before.stage != stage::REQUEST_SENSE {
        return;
    }
    let Some(address) = ADDRESS.lock().unwrap().take() else {
        return;
    };
    let number = address.max(own(before, units).blocks);
    let (valid, information) = match (chosen(), sent[0] & VALID != 0) {
        (Fault::InformationAddress, true) => (VALID, address.to_be_bytes()),
        (Fault::InformationValid, true) => (0, number.to_be_bytes()),
        (Fault::InformationOrder, true) => (VALID, number.to_le_bytes()),
        (Fault::InformationKept, false) => (VALID, number.to_be_bytes()),
        _ => return,
    };
    sent[0] = FIXED_FORMAT | valid;
    for (byte, value) in sent.iter_mut().skip(INFORMATION).zip(information) {
        *byte = value;
    }
}
