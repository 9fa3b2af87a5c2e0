//! The usbredir protocol (version 0.7 of its description, "usb-redirection-protocol"): packets on a byte stream, little endian.
//! Only what a full-speed device with control and bulk endpoints needs, with the capabilities that QEMU asks for under xhci.

use std::io::{self, Read, Write};

const HELLO: u32 = 0;
pub const DEVICE_CONNECT: u32 = 1;
pub const DEVICE_DISCONNECT: u32 = 2;
pub const RESET: u32 = 3;
pub const INTERFACE_INFO: u32 = 4;
pub const EP_INFO: u32 = 5;
pub const SET_CONFIGURATION: u32 = 6;
pub const GET_CONFIGURATION: u32 = 7;
pub const CONFIGURATION_STATUS: u32 = 8;
pub const SET_ALT_SETTING: u32 = 9;
pub const GET_ALT_SETTING: u32 = 10;
pub const ALT_SETTING_STATUS: u32 = 11;
pub const CANCEL_DATA_PACKET: u32 = 21;
pub const DEVICE_DISCONNECT_ACK: u32 = 24;
pub const CONTROL_PACKET: u32 = 100;
pub const BULK_PACKET: u32 = 101;

const CAP_CONNECT_DEVICE_VERSION: u32 = 1 << 1;
const CAP_DEVICE_DISCONNECT_ACK: u32 = 1 << 3;
const CAP_EP_INFO_MAX_PACKET_SIZE: u32 = 1 << 4;
const CAP_64BITS_IDS: u32 = 1 << 5;
const CAP_32BITS_BULK_LENGTH: u32 = 1 << 6;
/// Each changes the form of packets where both sides have it. The peer asks for all of them, so that there is one form.
const CAPABILITIES: u32 = CAP_CONNECT_DEVICE_VERSION
    | CAP_DEVICE_DISCONNECT_ACK
    | CAP_EP_INFO_MAX_PACKET_SIZE
    | CAP_64BITS_IDS
    | CAP_32BITS_BULK_LENGTH;

const FULL_SPEED: u8 = 1;
const TYPE_CONTROL: u8 = 0;
const TYPE_BULK: u8 = 2;
const TYPE_INVALID: u8 = 255;

/// How a transfer ended.
#[derive(Clone, Copy, PartialEq, Eq)]
pub enum Status {
    Success = 0,
    Cancelled = 1,
    IoError = 3,
    Stall = 4,
}

/// A packet of the stream: its type, the number that its answer must carry, and its bytes.
pub struct Packet {
    pub kind: u32,
    pub id: u64,
    pub body: Vec<u8>,
}

/// A control transfer as the host asks for it.
pub struct Control {
    pub endpoint: u8,
    pub setup: [u8; 8],
}

/// A bulk transfer as the host asks for it; `data` is empty where it asks for bytes.
pub struct Bulk {
    pub endpoint: u8,
    pub length: usize,
    pub stream: u32,
    pub data: Vec<u8>,
}

fn word(bytes: &[u8], at: usize) -> u32 {
    u32::from_le_bytes(bytes[at..at + 4].try_into().unwrap())
}

fn half(bytes: &[u8], at: usize) -> u16 {
    u16::from_le_bytes(bytes[at..at + 2].try_into().unwrap())
}

/// The next packet's head and body. Hellos have a number of 4 bytes, all later packets one of 8.
fn read_sized(stream: &mut impl Read, id_size: usize) -> io::Result<Packet> {
    let mut head = [0u8; 16];
    stream.read_exact(&mut head[..8 + id_size])?;
    let mut body = vec![0; word(&head, 4) as usize];
    stream.read_exact(&mut body)?;
    let id = u64::from_le_bytes(head[8..].try_into().unwrap());
    Ok(Packet { kind: word(&head, 0), id, body })
}

fn write_sized(stream: &mut impl Write, kind: u32, id: u64, id_size: usize, body: &[u8]) -> io::Result<()> {
    let mut bytes = kind.to_le_bytes().to_vec();
    bytes.extend((body.len() as u32).to_le_bytes());
    bytes.extend(&id.to_le_bytes()[..id_size]);
    bytes.extend(body);
    stream.write_all(&bytes)
}

pub fn read(stream: &mut impl Read) -> io::Result<Packet> {
    read_sized(stream, 8)
}

pub fn write(stream: &mut impl Write, kind: u32, id: u64, body: &[u8]) -> io::Result<()> {
    write_sized(stream, kind, id, 8, body)
}

/// Both sides' hellos: names and capabilities.
pub fn greet(stream: &mut (impl Read + Write)) -> io::Result<()> {
    let mut body = b"collector depot".to_vec();
    body.resize(64, 0);
    body.extend(CAPABILITIES.to_le_bytes());
    write_sized(stream, HELLO, 0, 4, &body)?;
    let heard = read_sized(stream, 4)?;
    let theirs = if heard.kind == HELLO && heard.body.len() >= 68 { word(&heard.body, 64) } else { 0 };
    match CAPABILITIES & !theirs {
        0 => Ok(()),
        lacking => Err(io::Error::other(format!("QEMU lacks capabilities {lacking:X}"))),
    }
}

/// One interface: mass storage, SCSI transparent, bulk-only (08 06 50).
pub fn interface_info() -> Vec<u8> {
    let mut body = 1u32.to_le_bytes().to_vec();
    for value in [0x00, 0x08, 0x06, 0x50] {
        body.push(value);
        body.extend([0; 31]);
    }
    body
}

/// Endpoint 0 both ways, bulk-in 81, bulk-out 02. The table has the sixteen out endpoints, then the sixteen in.
pub fn ep_info() -> Vec<u8> {
    let (mut kinds, mut sizes) = ([TYPE_INVALID; 32], [0u16; 32]);
    for (at, kind) in [(0, TYPE_CONTROL), (16, TYPE_CONTROL), (2, TYPE_BULK), (17, TYPE_BULK)] {
        kinds[at] = kind;
        sizes[at] = 64;
    }
    let mut body = kinds.to_vec();
    body.extend([0; 64]); // interval and interface, all 0
    body.extend(sizes.iter().flat_map(|size| size.to_le_bytes()));
    body
}

/// Class, subclass and protocol are 0 in the device descriptor: the interface says them.
pub fn device_connect(vendor: u16, product: u16, release: u16) -> Vec<u8> {
    let mut body = vec![FULL_SPEED, 0, 0, 0];
    for field in [vendor, product, release] {
        body.extend(field.to_le_bytes());
    }
    body
}

pub fn control(body: &[u8]) -> Control {
    let (endpoint, request, kind) = (body[0], body[1], body[2]);
    let mut setup = [kind, request, 0, 0, 0, 0, 0, 0];
    setup[2..8].copy_from_slice(&body[4..10]);
    Control { endpoint, setup }
}

/// The answer to a control packet: its fields again, with the status and the bytes that came.
pub fn control_answer(asked: &Control, status: Status, data: &[u8]) -> Vec<u8> {
    let s = &asked.setup;
    let mut body = vec![asked.endpoint, s[1], s[0], status as u8];
    body.extend(&s[2..6]);
    body.extend((data.len() as u16).to_le_bytes());
    body.extend(data);
    body
}

pub fn bulk(body: &[u8]) -> Bulk {
    Bulk {
        endpoint: body[0],
        length: half(body, 2) as usize | (half(body, 8) as usize) << 16,
        stream: word(body, 4),
        data: body[10..].to_vec(),
    }
}

/// The answer to a bulk packet: how many bytes went, and, inward, the bytes.
pub fn bulk_answer(asked: &Bulk, status: Status, count: usize, data: &[u8]) -> Vec<u8> {
    let mut body = vec![asked.endpoint, status as u8];
    body.extend((count as u16).to_le_bytes());
    body.extend(asked.stream.to_le_bytes());
    body.extend(((count >> 16) as u16).to_le_bytes());
    body.extend(data);
    body
}
