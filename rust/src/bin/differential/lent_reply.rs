//! The reply that a showing call is lent (document 02, A11): the record's own, or one with a fault.

use crate::inquiry::PAGES;
use crate::random::Random;
use ordinary::device::{Answer, Device, MAX_NUMBER, PACKET};
use ordinary::record::{flag, stage, Record};
use ordinary::unit::table;
use std::fmt;

/// What is lent, told apart from the record, so that it follows it when events are left out.
#[derive(Clone, Debug)]
pub enum LentReply {
    Own,
    /// Some bits of a byte are others; its place is counted around the reply.
    Byte(usize, u8),
    /// With a byte behind it.
    Longer(u8),
    /// Without its last byte.
    Shorter,
    Empty,
    /// As if no allocation length had cut it.
    Uncut,
    /// The bytes still due alone.
    Rest,
    Other(Vec<u8>),
}

impl LentReply {
    /// Mostly the record's own.
    pub fn some(random: &mut Random) -> LentReply {
        if random.one_in(6) {
            LentReply::other(random)
        } else {
            LentReply::Own
        }
    }

    /// Mostly not the record's own.
    pub fn other(random: &mut Random) -> LentReply {
        match random.below(8) {
            0 | 1 => LentReply::Byte(random.below(36) as usize, 1 << random.below(8)),
            2 => LentReply::Longer(random.pick(&[0, 0xFF])),
            3 => LentReply::Shorter,
            4 => LentReply::Empty,
            5 => LentReply::Uncut,
            6 => LentReply::Rest,
            _ => {
                let length = random.pick(&[1, 4, 5, 18, 36, 64, 512]);
                LentReply::Other(random.bytes(length))
            }
        }
    }

    pub fn bytes(&self, record: &Record) -> Vec<u8> {
        let mut reply = own(record);
        match self {
            LentReply::Own => {}
            LentReply::Byte(at, bits) => {
                let length = reply.len().max(1);
                reply.get_mut(at % length).into_iter().for_each(|byte| *byte ^= bits);
            }
            LentReply::Longer(byte) => reply.push(*byte),
            LentReply::Shorter => drop(reply.pop()),
            LentReply::Empty => reply.clear(),
            LentReply::Uncut => reply = whole(record),
            LentReply::Rest => drop(reply.drain(..reply.len().min(record.place as usize))),
            LentReply::Other(bytes) => reply.clone_from(bytes),
        }
        reply
    }
}

impl fmt::Display for LentReply {
    fn fmt(&self, f: &mut fmt::Formatter) -> fmt::Result {
        match self {
            LentReply::Own => write!(f, "own reply"),
            other => write!(f, "reply {other:02X?}"),
        }
    }
}

/// Whether the record's stage sends a reply.
pub fn runs(record: &Record) -> bool {
    size(record) > 0
}

/// The size of a reply before it is cut. The sizes are not the ordinary device's, so that another one there shows.
fn size(record: &Record) -> u32 {
    let page = PAGES.iter().find(|(code, _)| u32::from(*code) == record.value);
    match record.stage {
        stage::REQUEST_SENSE => 18,
        stage::INQUIRY => 36,
        stage::MODE_SENSE => 4,
        stage::READ_CAPACITY => 8,
        stage::PRODUCT_PAGE => page.map_or(0, |(_, size)| u32::from(*size)),
        _ => 0,
    }
}

/// The whole data of the reply that runs, empty where none does. What else is wrong with the record does not matter, so
/// that a record that does not fit is lent what one that fits would be.
pub fn whole(record: &Record) -> Vec<u8> {
    let (size, number) = (size(record), record.number.min(MAX_NUMBER));
    let (residue, announced) = (size, size);
    let (flags, extra) = match record.stage {
        stage::REQUEST_SENSE => (flag::CONFIGURED, record.extra),
        _ => (flag::CONFIGURED, 0),
    };
    let mended = Record { number, flags, extra, residue, announced, place: 0, left: size, ..*record };
    let mended = Record { address: 0, unit: 0, ..mended };
    let mut buffer = [0; PACKET];
    let answer =
        Device::from_record(&mended).map(|mut device| device.bulk_in(&table(&[1]), &[0; 512], &mut buffer));
    match answer {
        Some(Answer::Data(count)) if runs(record) => buffer[..count as usize].to_vec(),
        _ => vec![],
    }
}

/// The record's reply: the whole data up to the last byte that is still due.
pub fn own(record: &Record) -> Vec<u8> {
    let mut reply = whole(record);
    reply.truncate(record.place.saturating_add(record.left) as usize);
    reply
}
