//! SCSI: the commands of a logical unit, their sense and replies (§ Commands; document 02, A1, A2, A4, A8 and
//! A12).

use crate::device::{Identity, BLOCK};
use crate::pages::Page;
use crate::switch::Switch;

/// Sense key, additional sense code and its qualifier, and INFORMATION.
#[derive(Clone, Copy, Debug, PartialEq, Eq)]
pub struct Sense {
    pub key: u8,
    pub asc: u8,
    pub ascq: u8,
    /// Of a range failure the first block outside the unit, of other senses 0 (document 02, A8).
    pub information: u32,
}

impl Sense {
    pub const NONE: Sense = Sense::new(0x00, 0x00, 0x00);
    pub const INVALID_OPERATION_CODE: Sense = Sense::new(0x05, 0x20, 0x00);
    pub const INVALID_FIELD: Sense = Sense::new(0x05, 0x24, 0x00);
    pub const WRITE_PROTECTED: Sense = Sense::new(0x07, 0x27, 0x00);
    pub const DATA_PHASE_ERROR: Sense = Sense::new(0x0B, 0x4B, 0x00);

    pub const fn new(key: u8, asc: u8, ascq: u8) -> Sense {
        Sense { key, asc, ascq, information: 0 }
    }

    /// A range failure: `block` is the first one outside the unit.
    pub const fn out_of_range(block: u32) -> Sense {
        Sense { information: block, ..Sense::new(0x05, 0x21, 0x00) }
    }

    /// Whatever its block: a record that was never reached may tell of block 0.
    pub fn is_out_of_range(&self) -> bool {
        *self == Sense::out_of_range(self.information)
    }

    /// § Numbers that come back, "sense zero": INFORMATION too.
    pub fn is_zero(&self) -> bool {
        *self == Sense::NONE
    }
}

/// The operation codes of the table.
pub mod code {
    pub const TEST_UNIT_READY: u8 = 0x00;
    pub const REQUEST_SENSE: u8 = 0x03;
    pub const INQUIRY: u8 = 0x12;
    pub const MODE_SENSE: u8 = 0x1A;
    pub const PREVENT_ALLOW: u8 = 0x1E;
    pub const READ_CAPACITY: u8 = 0x25;
    pub const READ: u8 = 0x28;
    pub const WRITE: u8 = 0x2A;
    pub const VERIFY: u8 = 0x2F;
}

/// The bytes that a command sends from elsewhere than the medium.
#[derive(Clone, Copy, Debug, PartialEq, Eq)]
pub enum Reply {
    /// The sense found when Request Sense came: the unit's own is cleared at once.
    Sense(Sense),
    /// Inquiry's standard data.
    Inquiry,
    /// Inquiry's product page. The collector number is the device's when the page is sent.
    Page(Page),
    /// Mode Sense with the switch as it stood when the command came.
    ModeSense(Switch),
    /// Read Capacity of so many blocks.
    Capacity(u32),
}

/// The most bytes of a reply: Inquiry's standard data.
pub const LONGEST_REPLY: usize = 36;

const INQUIRY: [u8; LONGEST_REPLY] = *b"\x00\x80\x05\x02\x1F\x00\x00\x00COLLECT METER EXPORT    0100";

impl Reply {
    /// The whole reply's size, before any allocation length cuts it.
    pub fn size(&self) -> u32 {
        match self {
            Reply::Sense(_) => 18,
            Reply::Inquiry => 36,
            Reply::Page(page) => page.size(),
            Reply::ModeSense(_) => 4,
            Reply::Capacity(_) => 8,
        }
    }

    /// Writes the reply's bytes from `place` on, as many as `out` holds.
    pub fn write(&self, identity: &Identity, place: usize, out: &mut [u8]) {
        let part = place..place + out.len();
        match *self {
            Reply::Sense(sense) => out.copy_from_slice(&fixed_format(sense)[part]),
            Reply::Inquiry => out.copy_from_slice(&INQUIRY[part]),
            Reply::Page(page) => out.copy_from_slice(&page.bytes(identity)[part]),
            Reply::ModeSense(switch) => out.copy_from_slice(&mode_parameters(switch)[part]),
            Reply::Capacity(blocks) => out.copy_from_slice(&capacity(blocks)[part]),
        }
    }
}

/// Sense data in the fixed format. A range failure's has VALID set in byte 0, and INFORMATION in bytes 3 to 6
/// (document 02, A8).
fn fixed_format(sense: Sense) -> [u8; 18] {
    let mut reply = [0; 18];
    reply[0] = 0x70;
    reply[2] = sense.key;
    reply[7] = 0x0A;
    reply[12] = sense.asc;
    reply[13] = sense.ascq;
    if sense.is_out_of_range() {
        reply[0] |= 0x80;
        reply[3..7].copy_from_slice(&sense.information.to_be_bytes());
    }
    reply
}

/// The mode parameter header, all that there is. WP, bit 7 of its third byte, shows the switch (document 02, A4).
fn mode_parameters(switch: Switch) -> [u8; 4] {
    match switch {
        Switch::Open => [0x03, 0x00, 0x00, 0x00],
        Switch::Closed => [0x03, 0x00, 0x80, 0x00],
    }
}

/// Read Capacity tells the last block, not the count. A unit has at least one block; a record that was never
/// reached may tell of none, and then the last block is 0.
fn capacity(blocks: u32) -> [u8; 8] {
    let mut reply = [0; 8];
    reply[..4].copy_from_slice(&blocks.saturating_sub(1).to_be_bytes());
    reply[4..].copy_from_slice(&(BLOCK as u32).to_be_bytes());
    reply
}

/// What a command that passed its checks moves; 0 bytes count as none.
#[derive(Clone, Copy, Debug, PartialEq, Eq)]
pub enum Data {
    None,
    Reply { reply: Reply, length: u32 },
    Read { block: u32, count: u32 },
    Write { block: u32, count: u32 },
}

impl Data {
    /// What a block's command sends of its reply: at most its allocation length, where the code has one.
    fn reply(reply: Reply, block: &[u8; 16]) -> Data {
        let most = allocation_length(block).map_or(u32::MAX, u32::from);
        match reply.size().min(most) {
            0 => Data::None,
            length => Data::Reply { reply, length },
        }
    }
}

/// The control byte's bits that no command may have set: LINK (0), the obsolete FLAG (1) and NACA (2)
/// (document 02, A12).
pub const REFUSED_CONTROL_BITS: u8 = 0x07;

/// The least command block length of an operation code; an unknown one needs its code alone.
pub fn block_length(operation: u8) -> u8 {
    known_length(operation).unwrap_or(1)
}

/// The command block length of a code of the table.
fn known_length(operation: u8) -> Option<u8> {
    match operation {
        code::TEST_UNIT_READY
        | code::REQUEST_SENSE
        | code::INQUIRY
        | code::MODE_SENSE
        | code::PREVENT_ALLOW => Some(6),
        code::READ_CAPACITY | code::READ | code::WRITE | code::VERIFY => Some(10),
        _ => None,
    }
}

/// Where the control byte stands: last in the code's own length, however long the wrapper says that the block is
/// (document 02, A12). An unknown code has none.
pub fn control_place(operation: u8) -> Option<usize> {
    known_length(operation).map(|length| usize::from(length) - 1)
}

/// The allocation length of the codes that have one: for Inquiry bytes 3 and 4, big endian (document 02, A1), for
/// Request Sense and Mode Sense byte 4 alone.
pub fn allocation_length(block: &[u8; 16]) -> Option<u16> {
    match block[0] {
        code::INQUIRY => Some(u16::from_be_bytes([block[3], block[4]])),
        code::REQUEST_SENSE | code::MODE_SENSE => Some(block[4].into()),
        _ => None,
    }
}

/// Checks a command block: code, fields, range, switch, in that order. The control byte is a field of every command.
pub fn decide(block: &[u8; 16], found: Sense, blocks: u32, switch: Switch) -> Result<Data, Sense> {
    if let Some(place) = control_place(block[0]) {
        field(block[place] & REFUSED_CONTROL_BITS == 0)?;
    }
    match block[0] {
        code::TEST_UNIT_READY => Ok(Data::None),
        code::REQUEST_SENSE => {
            field(block[1] & 0x01 == 0)?;
            Ok(Data::reply(Reply::Sense(found), block))
        }
        code::INQUIRY => Ok(Data::reply(inquiry(block)?, block)),
        code::MODE_SENSE => {
            field(block[2] == 0x3F)?;
            Ok(Data::reply(Reply::ModeSense(switch), block))
        }
        code::PREVENT_ALLOW => field(block[4] & 0x01 == 0).map(|()| Data::None),
        code::READ_CAPACITY => Ok(Data::reply(Reply::Capacity(blocks), block)),
        code::READ => {
            field(block[1] & 0xE0 == 0)?;
            Ok(match range(block, blocks)? {
                (_, 0) => Data::None,
                (block, count) => Data::Read { block, count },
            })
        }
        code::WRITE => {
            field(block[1] & 0xE0 == 0)?;
            let range = range(block, blocks)?;
            writable(switch)?;
            Ok(match range {
                (_, 0) => Data::None,
                (block, count) => Data::Write { block, count },
            })
        }
        code::VERIFY => {
            field(block[1] & 0xE2 == 0)?;
            range(block, blocks).map(|_| Data::None)
        }
        _ => Err(Sense::INVALID_OPERATION_CODE),
    }
}

/// What Inquiry asks for: a product page if EVPD is set (document 02, A2), else the standard data, which has no page.
/// The other bits of byte 1 have no meaning.
fn inquiry(block: &[u8; 16]) -> Result<Reply, Sense> {
    let evpd = block[1] & 0x01 != 0;
    let reply = match (evpd, block[2]) {
        (true, page) => Page::from_code(page).map(Reply::Page),
        (false, 0) => Some(Reply::Inquiry),
        (false, _) => None,
    };
    reply.ok_or(Sense::INVALID_FIELD)
}

fn field(good: bool) -> Result<(), Sense> {
    good.then_some(()).ok_or(Sense::INVALID_FIELD)
}

/// With the switch closed no Write passes, one of no blocks included (document 02, A4).
fn writable(switch: Switch) -> Result<(), Sense> {
    match switch {
        Switch::Open => Ok(()),
        Switch::Closed => Err(Sense::WRITE_PROTECTED),
    }
}

/// Block address and count. Their sum is taken in 64 bits, for it does not fit in 32; count 0 is checked too. A failure
/// tells the first block outside the unit: the address, or the unit's end if that is larger (document 02, A8).
fn range(block: &[u8; 16], blocks: u32) -> Result<(u32, u32), Sense> {
    let address = u32::from_be_bytes([block[2], block[3], block[4], block[5]]);
    let count = u16::from_be_bytes([block[7], block[8]]);
    if u64::from(address) + u64::from(count) <= u64::from(blocks) {
        Ok((address, count.into()))
    } else {
        Err(Sense::out_of_range(address.max(blocks)))
    }
}
