//! An event with all that is lent to it, so that a list of events can be played again.

use crate::compare::show_table;
use crate::lent_reply::LentReply;
use ordinary::device::Identity;
use ordinary::record::Record;
use ordinary::unit::Unit;
use std::fmt;

/// The medium lent: the trial's own, or another of some length.
#[derive(Clone, Copy, PartialEq, Eq)]
pub enum Lent {
    Own,
    Other(usize),
}

/// The buffer lent: its length, and the seed of the bytes that it holds beforehand.
#[derive(Clone, Copy)]
pub struct Buffer {
    pub length: usize,
    pub seed: u64,
}

#[derive(Clone)]
pub enum Event {
    Make { identity: Identity, medium: Lent },
    BusReset,
    Control { setup: Vec<u8>, buffer: Buffer },
    BulkOut { medium: Lent, packet: Vec<u8> },
    BulkIn { medium: Lent, buffer: Buffer },
    Show { medium: Lent, reply: LentReply },
    Reply { buffer: Buffer },
    Switch { position: u8, unit: u8 },
}

/// An event in a trial's list.
#[derive(Clone)]
pub struct Step {
    pub event: Event,
    /// Another table than the trial's own, lent with this event alone.
    pub other: Option<Vec<Unit>>,
}

impl Step {
    pub fn own(event: Event) -> Step {
        Step { event, other: None }
    }
}

pub const KINDS: [&str; 8] =
    ["make", "bus reset", "control", "bulk-out", "bulk-in", "switch", "show", "reply"];

impl Event {
    /// Its kind's place in `KINDS`.
    pub fn kind(&self) -> usize {
        match self {
            Event::Make { .. } => 0,
            Event::BusReset => 1,
            Event::Control { .. } => 2,
            Event::BulkOut { .. } => 3,
            Event::BulkIn { .. } => 4,
            Event::Switch { .. } => 5,
            Event::Show { .. } => 6,
            Event::Reply { .. } => 7,
        }
    }

    /// Whether it asks for bulk-in data, copied or shown.
    pub fn asks(&self) -> bool {
        matches!(self, Event::BulkIn { .. } | Event::Show { .. })
    }

    pub fn medium(&self) -> Lent {
        match *self {
            Event::Make { medium, .. }
            | Event::BulkOut { medium, .. }
            | Event::BulkIn { medium, .. }
            | Event::Show { medium, .. } => medium,
            Event::BusReset | Event::Control { .. } | Event::Reply { .. } | Event::Switch { .. } => Lent::Own,
        }
    }

    /// The reply lent with a record; empty where the event is lent none.
    pub fn reply(&self, record: &Record) -> Vec<u8> {
        match self {
            Event::Show { reply, .. } => reply.bytes(record),
            _ => vec![],
        }
    }

    pub fn buffer(&self) -> Option<Buffer> {
        match *self {
            Event::Control { buffer, .. } | Event::BulkIn { buffer, .. } | Event::Reply { buffer } => {
                Some(buffer)
            }
            _ => None,
        }
    }
}

struct Hex<'a>(&'a [u8]);

impl fmt::Display for Hex<'_> {
    fn fmt(&self, f: &mut fmt::Formatter) -> fmt::Result {
        write!(f, "{} bytes:", self.0.len())?;
        self.0.iter().try_for_each(|byte| write!(f, " {byte:02X}"))
    }
}

impl fmt::Display for Lent {
    fn fmt(&self, f: &mut fmt::Formatter) -> fmt::Result {
        match self {
            Lent::Own => write!(f, "own medium"),
            Lent::Other(length) => write!(f, "medium of {length} bytes"),
        }
    }
}

impl fmt::Display for Event {
    fn fmt(&self, f: &mut fmt::Formatter) -> fmt::Result {
        match self {
            Event::Make { identity, medium } => write!(f, "make {identity:?}, {medium}"),
            Event::BusReset => write!(f, "bus reset"),
            Event::Control { setup, buffer } => {
                write!(f, "control, setup of {}, buffer of {} bytes", Hex(setup), buffer.length)
            }
            Event::BulkOut { medium, packet } => write!(f, "bulk-out, {medium}, packet of {}", Hex(packet)),
            Event::BulkIn { medium, buffer } => {
                write!(f, "bulk-in, {medium}, buffer of {} bytes", buffer.length)
            }
            Event::Show { medium, reply } => write!(f, "show, {medium}, {reply}"),
            Event::Reply { buffer } => write!(f, "reply, buffer of {} bytes", buffer.length),
            Event::Switch { position, unit } => write!(f, "switch, position {position}, unit {unit}"),
        }
    }
}

impl fmt::Display for Step {
    fn fmt(&self, f: &mut fmt::Formatter) -> fmt::Result {
        write!(f, "{}", self.event)?;
        match &self.other {
            None => Ok(()),
            Some(units) => write!(f, "; lent another table: {}", show_table(units)),
        }
    }
}
