//! Bulk-Only Transport, from the host's side, with nothing that would put a fault right.

use crate::usbfs::Device;
use std::io::{Error, Result};

pub const BLOCK: usize = 512;
pub const TEST_UNIT_READY: [u8; 6] = [0; 6];

/// A command wrapper of 31 bytes. The tag is all that a status wrapper must bring back.
pub fn cbw(tag: u32, length: u32, inward: bool, unit: u8, block: &[u8]) -> Vec<u8> {
    let mut bytes = b"USBC".to_vec();
    bytes.extend(tag.to_le_bytes());
    bytes.extend(length.to_le_bytes());
    bytes.extend([if inward { 0x80 } else { 0 }, unit, block.len() as u8]);
    bytes.extend(block);
    bytes.resize(31, 0);
    bytes
}

pub fn csw(tag: u32, residue: u32, status: u8) -> Vec<u8> {
    let mut bytes = b"USBS".to_vec();
    bytes.extend(tag.to_le_bytes());
    bytes.extend(residue.to_le_bytes());
    bytes.push(status);
    bytes
}

fn ten(code: u8, block: u32, count: u16) -> [u8; 10] {
    let (at, n) = (block.to_be_bytes(), count.to_be_bytes());
    [code, 0, at[0], at[1], at[2], at[3], 0, n[0], n[1], 0]
}

pub fn read_10(block: u32, count: u16) -> [u8; 10] {
    ten(0x28, block, count)
}

pub fn write_10(block: u32, count: u16) -> [u8; 10] {
    ten(0x2A, block, count)
}

pub fn verify_10(block: u32, count: u16) -> [u8; 10] {
    ten(0x2F, block, count)
}

/// One block of a unit, by a whole command that passes.
pub fn read_block(device: &Device, unit: u8, tag: u32, block: u32) -> Result<Vec<u8>> {
    device.bulk_out(&cbw(tag, BLOCK as u32, true, unit, &read_10(block, 1)), None)?;
    let data = device.bulk_in(BLOCK as u32, None)?;
    match device.bulk_in(13, None)? {
        status if status == csw(tag, 0, 0) => Ok(data),
        status => Err(Error::other(format!("status {status:02X?}"))),
    }
}

pub fn test_unit_ready(device: &Device, tag: u32) -> Result<()> {
    device.bulk_out(&cbw(tag, 0, false, 0, &TEST_UNIT_READY), None)?;
    match device.bulk_in(13, None)? {
        status if status == csw(tag, 0, 0) => Ok(()),
        status => Err(Error::other(format!("status {status:02X?}"))),
    }
}

pub fn mass_storage_reset(device: &Device) -> Result<()> {
    device.control(0x21, 0xFF, 0, 0, 0).map(|_| ())
}

pub fn clear_halts(device: &Device) -> Result<()> {
    device.clear_halt(0x81)?;
    device.clear_halt(0x02)
}

/// BOT 5.3.4, reset recovery.
pub fn recover(device: &Device) -> Result<()> {
    mass_storage_reset(device)?;
    clear_halts(device)
}
