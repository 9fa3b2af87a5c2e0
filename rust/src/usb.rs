//! USB chapter 9: setup bytes, the requests among them that the device knows, and its descriptors.

use crate::device::Identity;

/// The two bulk pipes and the control pipe's two directions, by endpoint address.
#[derive(Clone, Copy, Debug, PartialEq, Eq)]
pub enum Endpoint {
    BulkIn,
    BulkOut,
    Control,
}

impl Endpoint {
    fn from_index(index: u16) -> Option<Endpoint> {
        match index {
            0x81 => Some(Endpoint::BulkIn),
            0x02 => Some(Endpoint::BulkOut),
            0x00 | 0x80 => Some(Endpoint::Control),
            _ => None,
        }
    }
}

/// The requests of § Control requests; whether the device's state allows one is not decided here.
#[derive(Clone, Copy, Debug, PartialEq, Eq)]
pub enum Request {
    SetAddress(u8),
    SetConfiguration(bool),
    GetConfiguration,
    DeviceStatus,
    InterfaceStatus,
    EndpointStatus(Endpoint),
    ClearHalt(Endpoint),
    SetHalt(Endpoint),
    MassStorageReset,
    GetMaxLun,
    GetDescriptor { value: u16, length: u16 },
}

impl Request {
    /// `None` for any other request: it stalls.
    pub fn read(setup: &[u8; 8]) -> Option<Request> {
        let [kind, request, v0, v1, i0, i1, l0, l1] = *setup;
        let value = u16::from_le_bytes([v0, v1]);
        let index = u16::from_le_bytes([i0, i1]);
        let length = u16::from_le_bytes([l0, l1]);
        match (kind, request, value, index, length) {
            (0x00, 0x05, 0..=0x7F, 0, 0) => Some(Request::SetAddress(value as u8)),
            (0x00, 0x09, 0..=1, 0, 0) => Some(Request::SetConfiguration(value == 1)),
            (0x80, 0x08, 0, 0, 1) => Some(Request::GetConfiguration),
            (0x80, 0x00, 0, 0, 2) => Some(Request::DeviceStatus),
            (0x81, 0x00, 0, 0, 2) => Some(Request::InterfaceStatus),
            (0x82, 0x00, 0, _, 2) => Endpoint::from_index(index).map(Request::EndpointStatus),
            (0x02, 0x01, 0, _, 0) => Endpoint::from_index(index).map(Request::ClearHalt),
            (0x02, 0x03, 0, _, 0) => Endpoint::from_index(index).map(Request::SetHalt),
            (0x21, 0xFF, 0, 0, 0) => Some(Request::MassStorageReset),
            (0xA1, 0xFE, 0, 0, 1) => Some(Request::GetMaxLun),
            (0x80, 0x06, 0x0100 | 0x0200 | 0x0300, 0, _) => Some(Request::GetDescriptor { value, length }),
            (0x80, 0x06, 0x0301..=0x0303, 0x0409, _) => Some(Request::GetDescriptor { value, length }),
            _ => None,
        }
    }
}

const CONFIGURATION: [u8; 32] = [
    0x09, 0x02, 0x20, 0x00, 0x01, 0x01, 0x00, 0xC0, 0x00, // configuration 1, self-powered
    0x09, 0x04, 0x00, 0x00, 0x02, 0x08, 0x06, 0x50, 0x00, // mass storage, SCSI, bulk-only
    0x07, 0x05, 0x81, 0x02, 0x40, 0x00, 0x00, // bulk-in, packets of 64
    0x07, 0x05, 0x02, 0x02, 0x40, 0x00, 0x00, // bulk-out, packets of 64
];
const LANGUAGES: [u8; 4] = [0x04, 0x03, 0x09, 0x04];

/// Writes the first `length` bytes of a descriptor and gives back how many there were.
pub fn write_descriptor(identity: &Identity, value: u16, length: u16, buffer: &mut [u8]) -> u32 {
    match value {
        0x0100 => cut(&device_descriptor(identity), length, buffer),
        0x0200 => cut(&CONFIGURATION, length, buffer),
        0x0300 => cut(&LANGUAGES, length, buffer),
        0x0301 => cut(&string::<16>(b"COLLECT"), length, buffer),
        0x0302 => cut(&string::<26>(b"METER EXPORT"), length, buffer),
        _ => cut(&string::<26>(&identity.digits()), length, buffer),
    }
}

fn cut(descriptor: &[u8], length: u16, buffer: &mut [u8]) -> u32 {
    let count = descriptor.len().min(length.into());
    buffer[..count].copy_from_slice(&descriptor[..count]);
    count as u32
}

fn device_descriptor(identity: &Identity) -> [u8; 18] {
    let mut descriptor = *b"\x12\x01\x00\x02\x00\x00\x00\x40......\x01\x02\x03\x01";
    descriptor[8..10].copy_from_slice(&identity.vendor.to_le_bytes());
    descriptor[10..12].copy_from_slice(&identity.product.to_le_bytes());
    descriptor[12..14].copy_from_slice(&identity.release.to_le_bytes());
    descriptor
}

/// A string descriptor of `SIZE` bytes: two of header, then the text in UTF-16.
fn string<const SIZE: usize>(text: &[u8]) -> [u8; SIZE] {
    let mut descriptor = [0; SIZE];
    descriptor[0] = SIZE as u8;
    descriptor[1] = 0x03;
    for (unit, &letter) in descriptor[2..].chunks_exact_mut(2).zip(text) {
        unit[0] = letter;
    }
    descriptor
}
