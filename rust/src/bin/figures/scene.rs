//! The kinds of event that are measured, each with the state before it.

use ordinary::device::{Device, Identity, BLOCK, PACKET};
use ordinary::record::Record;
use ordinary::scsi::code;
use ordinary::unit::{table, Unit};
use ordinary::wrapper::{CBW_SIGNATURE, CBW_SIZE};

/// The usual unit, and the 64 KiB of a long read or write from its block `FIRST` on.
pub const BLOCKS: u32 = 256;
pub const LONG: u16 = 128;
pub const FIRST: u32 = 32;

/// What is sent to the device.
#[derive(Clone, Copy)]
pub enum Input {
    Control([u8; 8]),
    Wrapper([u8; CBW_SIZE]),
    /// So many packets of data one after the other.
    Data(usize),
    Ask,
    /// An ask by the showing call, with no reply in hand.
    Show,
    /// Position and unit.
    Switch(u8, u8),
}

impl Input {
    /// The events that it counts as.
    pub fn events(self) -> usize {
        match self {
            Input::Data(packets) => packets,
            _ => 1,
        }
    }
}

/// A record, and the table of units beside it.
#[derive(Clone)]
pub struct State {
    pub record: Record,
    pub units: Vec<Unit>,
}

pub struct Scene {
    pub key: &'static str,
    pub name: String,
    pub before: State,
    pub input: Input,
}

impl Scene {
    /// A medium for the table before the event.
    pub fn medium(&self) -> Vec<u8> {
        medium(&self.before.units)
    }
}

/// The table of so many usual units. Commands are for the last one: its blocks are the farthest out in the medium.
pub fn usual(count: usize) -> Vec<Unit> {
    table(&vec![BLOCKS; count])
}

/// A wrapper for the last unit.
pub fn wrapper(units: &[Unit], operation: u8, block: u32, count: u16) -> [u8; CBW_SIZE] {
    let mut packet = [0; CBW_SIZE];
    packet[..4].copy_from_slice(&CBW_SIGNATURE);
    packet[4..8].copy_from_slice(&[1, 2, 3, 4]);
    packet[8..12].copy_from_slice(&(u32::from(count) * BLOCK as u32).to_le_bytes());
    packet[12] = if operation == code::READ { 0x80 } else { 0 };
    packet[13] = units.len() as u8 - 1;
    packet[14] = 10;
    packet[15] = operation;
    packet[17..21].copy_from_slice(&block.to_be_bytes());
    packet[22..24].copy_from_slice(&count.to_be_bytes());
    packet
}

/// A configured device over a table and a medium, ready for a wrapper.
pub fn ready(units: &mut [Unit], medium: &[u8]) -> Device {
    let identity = Identity { number: 42, vendor: 1, product: 2, release: 3 };
    let mut device = Device::make(identity, units, medium).expect("table, medium and number are good");
    device.control(units, &[0x00, 0x09, 1, 0, 0, 0, 0, 0], &mut [0; PACKET]);
    device
}

/// The usual medium's bytes, then zeros that cost nothing until they are touched.
pub fn medium(units: &[Unit]) -> Vec<u8> {
    let blocks: u32 = units.iter().map(|unit| unit.blocks).sum();
    let usual = units.len() * BLOCKS as usize * BLOCK;
    let mut medium = vec![0; blocks as usize * BLOCK];
    medium.iter_mut().take(usual).enumerate().for_each(|(at, byte)| *byte = (at / 7) as u8);
    medium
}

/// The state after a wrapper, some packets and some asks.
fn after(units: &[Unit], wrapper: &[u8], packets: usize, asks: usize) -> State {
    let (mut medium, mut units) = (medium(units), units.to_vec());
    let mut device = ready(&mut units, &medium);
    device.bulk_out(&mut units, &mut medium, wrapper);
    for _ in 0..packets {
        device.bulk_out(&mut units, &mut medium, &[0x5A; PACKET]);
    }
    for _ in 0..asks {
        device.bulk_in(&units, &medium, &mut [0; PACKET]);
    }
    State { record: device.to_record(), units }
}

/// The state after a write's wrapper and some packets.
pub fn writing(units: &[Unit], wrapper: &[u8], packets: usize) -> State {
    after(units, wrapper, packets, 0)
}

/// The state after a read's wrapper and some asks.
pub fn reading(units: &[Unit], wrapper: &[u8], asks: usize) -> State {
    after(units, wrapper, 0, asks)
}

/// The state of a configured device.
pub fn waiting(units: &[Unit]) -> State {
    let mut units = units.to_vec();
    let medium = medium(&units);
    let record = ready(&mut units, &medium).to_record();
    State { record, units }
}

/// The state after the wrapper of an Inquiry for page 80, the unit serial.
fn page_due(units: &[Unit]) -> State {
    let mut packet = wrapper(units, code::INQUIRY, 0, 0);
    (packet[8], packet[12], packet[14]) = (16, 0x80, 6);
    packet[15..21].copy_from_slice(&[code::INQUIRY, 0x01, 0x80, 0, 16, 0]);
    reading(units, &packet, 0)
}

/// The events on a table of so many units. The last unit's switch is moved.
pub fn scenes(count: usize) -> Vec<Scene> {
    let units = &usual(count)[..];
    let ready = waiting(units);
    let (read, write) = (wrapper(units, code::READ, FIRST, LONG), wrapper(units, code::WRITE, FIRST, LONG));
    let reading = |asks| reading(units, &read, asks);
    let writing = |packets| writing(units, &write, packets);
    let tail = if count == 1 { String::new() } else { format!(", {count} units") };
    let scene = |key, name: &str, before: State, input| {
        let name = format!("{name}{tail}");
        Scene { key, name, before, input }
    };
    vec![
        scene("data-in", "bulk-in data, 64 bytes of a long read", reading(500), Input::Ask),
        scene("gather", "bulk-out data, packet within a block", writing(803), Input::Data(1)),
        scene("store", "bulk-out data, packet that stores the block", writing(807), Input::Data(1)),
        scene("block", "bulk-out data, mean over a block", writing(800), Input::Data(8)),
        scene("wrapper", "command wrapper, Read(10)", ready.clone(), Input::Wrapper(read)),
        scene("status", "status wrapper", reading(1024), Input::Ask),
        scene("page", "bulk-in reply, product page 80", page_due(units), Input::Ask),
        scene(
            "descriptor",
            "control, Get Descriptor (device)",
            ready.clone(),
            Input::Control([0x80, 0x06, 0, 1, 0, 0, 18, 0]),
        ),
        scene(
            "serial",
            "control, Get Descriptor (serial string)",
            ready.clone(),
            Input::Control([0x80, 0x06, 3, 3, 0x09, 0x04, 255, 0]),
        ),
        scene(
            "get-status",
            "control, Get Status (device)",
            ready.clone(),
            Input::Control([0x80, 0x00, 0, 0, 0, 0, 2, 0]),
        ),
        scene(
            "max-lun",
            "control, Get Max LUN",
            ready.clone(),
            Input::Control([0xA1, 0xFE, 0, 0, 0, 0, 1, 0]),
        ),
        scene(
            "reset",
            "control, Mass Storage Reset",
            ready.clone(),
            Input::Control([0x21, 0xFF, 0, 0, 0, 0, 0, 0]),
        ),
        scene("switch", "write switch, closed", ready, Input::Switch(1, count as u8 - 1)),
    ]
}
