//! A host for the ordinary device's tests: it carries a command through to its status.

use ordinary::device::{Answer, Device, Identity, BLOCK};
use ordinary::record::Record;
use ordinary::unit::{table, Unit};

pub struct Bench {
    pub device: Device,
    pub units: Vec<Unit>,
    pub medium: Vec<u8>,
    /// The unit that commands and the switch are for.
    pub unit: u8,
}

pub const TAG: u32 = 0x826A_6008;

impl Bench {
    /// A configured device with one unit, and a medium of zeros.
    pub fn new(blocks: usize) -> Bench {
        Bench::units(&[blocks as u32])
    }

    /// A configured device with units of these sizes, and a medium of zeros.
    pub fn units(sizes: &[u32]) -> Bench {
        Bench::with(Identity { number: 42, vendor: 0x1234, product: 0x5678, release: 0x0100 }, sizes)
    }

    pub fn with(identity: Identity, sizes: &[u32]) -> Bench {
        let mut units = table(sizes);
        let medium = vec![0; sizes.iter().sum::<u32>() as usize * BLOCK];
        let device = Device::make(identity, &mut units, &medium).unwrap();
        let mut bench = Bench { device, units, medium, unit: 0 };
        assert_eq!(bench.control([0x00, 0x09, 1, 0, 0, 0, 0, 0]), Ok(vec![]));
        bench
    }

    /// A device in the state of a record, lent a table, and a medium of zeros.
    pub fn of(record: &Record, units: &[Unit]) -> Bench {
        let blocks: u32 = units.iter().map(|unit| unit.blocks).sum();
        let medium = vec![0; blocks as usize * BLOCK];
        Bench { device: Device::from_record(record).unwrap(), units: units.to_vec(), medium, unit: 0 }
    }

    pub fn record(&self) -> Record {
        self.device.to_record()
    }

    /// The unit's sense and its number.
    pub fn held(&self) -> ([u8; 3], u32) {
        let unit = &self.units[usize::from(self.unit)];
        ([unit.sense_key, unit.sense_asc, unit.sense_ascq], unit.sense_information)
    }

    pub fn bus_reset(&mut self) -> Answer {
        self.device.bus_reset(&mut self.units)
    }

    /// A control request's data, empty for an ack; the error is any other answer.
    pub fn control(&mut self, setup: [u8; 8]) -> Result<Vec<u8>, Answer> {
        let mut buffer = [0xEE; 64];
        match self.device.control(&mut self.units, &setup, &mut buffer) {
            Answer::Data(count) => Ok(buffer[..count as usize].to_vec()),
            Answer::Ack => Ok(vec![]),
            other => Err(other),
        }
    }

    pub fn send(&mut self, packet: &[u8]) -> Answer {
        self.device.bulk_out(&mut self.units, &mut self.medium, packet)
    }

    pub fn ask(&mut self) -> Result<Vec<u8>, Answer> {
        let mut buffer = [0xEE; 64];
        match self.device.bulk_in(&self.units, &self.medium, &mut buffer) {
            Answer::Data(count) => Ok(buffer[..count as usize].to_vec()),
            other => Err(other),
        }
    }

    /// Sends a wrapper, which must be accepted.
    pub fn command(&mut self, announced: u32, data_in: bool, block: &[u8]) {
        assert_eq!(self.send(&for_unit(self.unit, wrapper(announced, data_in, block))), Answer::Ack);
    }

    pub fn clear_halt(&mut self, endpoint: u8) {
        assert_eq!(self.control([0x02, 0x01, 0, 0, endpoint, 0, 0, 0]), Ok(vec![]));
    }

    /// Moves the unit's write switch, which must be taken.
    pub fn set_switch(&mut self, position: u8) {
        assert_eq!(self.turn(position, self.unit), Answer::Ack);
    }

    /// The switch event.
    pub fn turn(&mut self, position: u8, unit: u8) -> Answer {
        self.device.set_switch(&mut self.units, position, unit)
    }

    /// Takes the status, which must carry the tag; gives back the residue and the status byte.
    pub fn status(&mut self) -> (u32, u8) {
        let csw = self.ask().unwrap();
        assert_eq!((&csw[..4], &csw[4..8]), (&b"USBS"[..], &TAG.to_le_bytes()[..]));
        (u32::from_le_bytes(csw[8..12].try_into().unwrap()), csw[12])
    }

    /// Carries a data-in command through, which must pass and send exactly `data`, at most a packet. Where more was
    /// announced the pipe halts, and the residue says how much.
    pub fn sends(&mut self, announced: u32, block: &[u8], data: &[u8]) {
        self.command(announced, true, block);
        if !data.is_empty() {
            assert_eq!(self.ask().as_deref(), Ok(data), "{block:02X?}");
        }
        self.ends(block, announced - data.len() as u32, 0);
    }

    /// Carries a data-in command through, which must fail without data.
    pub fn fails(&mut self, announced: u32, block: &[u8], sense: [u8; 3]) {
        self.command(announced, true, block);
        self.ends(block, announced, 1);
        assert_eq!(self.sense(), sense, "{block:02X?}");
    }

    /// The end of a data-in command: a halt where there is a residue, and its status.
    fn ends(&mut self, block: &[u8], residue: u32, status: u8) {
        if residue > 0 {
            assert_eq!(self.ask(), Err(Answer::Stall), "{block:02X?}");
            self.clear_halt(0x81);
        }
        assert_eq!(self.status(), (residue, status), "{block:02X?}");
    }

    /// What Request Sense sends.
    pub fn sense_data(&mut self) -> Vec<u8> {
        self.command(18, true, &[0x03, 0, 0, 0, 18, 0]);
        let reply = self.ask().unwrap();
        assert_eq!(self.status(), (0, 0));
        reply
    }

    /// Key, ASC and ASCQ by Request Sense.
    pub fn sense(&mut self) -> [u8; 3] {
        let reply = self.sense_data();
        [reply[2], reply[12], reply[13]]
    }
}

/// A wrapper for unit 0.
pub fn wrapper(announced: u32, data_in: bool, block: &[u8]) -> Vec<u8> {
    let mut packet = b"USBC".to_vec();
    packet.extend(TAG.to_le_bytes());
    packet.extend(announced.to_le_bytes());
    packet.extend([u8::from(data_in) << 7, 0, block.len() as u8]);
    packet.extend(block);
    packet.resize(31, 0);
    packet
}

/// The wrapper with another unit in byte 13.
pub fn for_unit(unit: u8, mut wrapper: Vec<u8>) -> Vec<u8> {
    wrapper[13] = unit;
    wrapper
}

/// A ten-byte command block with a block address and a count.
pub fn block10(code: u8, address: u32, count: u16) -> [u8; 10] {
    let mut block = [0; 10];
    block[0] = code;
    block[2..6].copy_from_slice(&address.to_be_bytes());
    block[7..9].copy_from_slice(&count.to_be_bytes());
    block
}
