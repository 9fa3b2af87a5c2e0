//! The auditors' ledger (document 02, A13): an accountant who sees the making, the events and their answers with the
//! bytes handed out, and nothing of the device. A book runs from one command drop to the next.

use crate::device::BLOCK;
use crate::tally::{Arrived, Tally};
use crate::usb::Request;
use crate::wrapper::{Cbw, CSW_SIGNATURE, CSW_SIZE};
use std::fmt;

/// An event of the history.
#[derive(Clone, Copy, Debug)]
pub enum Event<'a> {
    BusReset,
    Control {
        setup: &'a [u8],
    },
    BulkOut {
        packet: &'a [u8],
    },
    BulkIn,
    /// A showing call (document 02, A11): its bytes count as an ask's.
    Show,
    Switch {
        position: u8,
        unit: u8,
    },
}

/// Document 01's numbers of the two answers that are booked.
const DATA: u32 = 0;
const ACK: u32 = 1;

/// A command wrapper that was accepted.
#[derive(Clone, Copy, Debug, PartialEq, Eq)]
pub struct Command {
    pub tag: u32,
    pub announced: u32,
    /// The bytes counted from the history since: data-in bytes handed out, and 512 for each block that arrived.
    pub counted: u64,
}

/// A status wrapper that was handed out.
#[derive(Clone, Copy, Debug, PartialEq, Eq)]
pub struct Status {
    pub tag: u32,
    pub residue: u32,
}

/// What came since the last command drop, in order.
#[derive(Clone, Debug, Default, PartialEq, Eq)]
pub struct Book {
    pub commands: Vec<Command>,
    pub statuses: Vec<Status>,
    /// Data-in bytes handed out before any command.
    pub stray: u64,
    /// Packets that were acked as command wrappers and cannot be accepted, so that they have no tag.
    pub unreadable: u64,
}

/// Why a book is out of balance. A place is that of a status and its command, from 0.
#[derive(Clone, Copy, Debug, PartialEq, Eq)]
pub enum Fault {
    Unreadable,
    Stray(u64),
    Number { commands: usize, statuses: usize },
    Tag { place: usize },
    Residue { place: usize },
}

impl Book {
    /// The auditors' three sentences.
    pub fn balance(&self) -> Result<(), Fault> {
        let (commands, statuses) = (self.commands.len(), self.statuses.len());
        if self.unreadable > 0 {
            return Err(Fault::Unreadable);
        }
        if self.stray > 0 {
            return Err(Fault::Stray(self.stray));
        }
        if statuses != commands && statuses + 1 != commands {
            return Err(Fault::Number { commands, statuses });
        }
        for (place, (command, status)) in self.commands.iter().zip(&self.statuses).enumerate() {
            if status.tag != command.tag {
                return Err(Fault::Tag { place });
            }
            if u64::from(command.announced) != u64::from(status.residue) + command.counted {
                return Err(Fault::Residue { place });
            }
        }
        Ok(())
    }

    /// Counts data for the latest command.
    fn count(&mut self, bytes: usize) {
        match self.commands.last_mut() {
            Some(command) => command.counted += bytes as u64,
            None => self.stray += bytes as u64,
        }
    }
}

pub struct Ledger {
    tally: Tally,
    book: Book,
}

impl Ledger {
    /// For a fresh collector with units of these sizes.
    pub fn new(sizes: &[u32]) -> Ledger {
        Ledger { tally: Tally::new(sizes), book: Book::default() }
    }

    /// The book that is open.
    pub fn book(&self) -> &Book {
        &self.book
    }

    /// Books an event, the number of its answer, and the bytes that were handed out with it. Refusals, naks, stalls and
    /// silence do nothing, and the control pipe's data is none of the bulk pipes'.
    pub fn note(&mut self, event: Event, number: u32, bytes: &[u8]) {
        match (event, number) {
            (Event::BusReset, ACK) => self.drop_command(),
            (Event::Control { setup }, ACK) if drops(setup) => self.drop_command(),
            (Event::BulkOut { packet }, ACK) => self.take(packet),
            (Event::BulkIn | Event::Show, DATA) => self.hand_out(bytes),
            (Event::Switch { position, unit }, ACK) => self.tally.set_switch(position, unit),
            _ => {}
        }
    }

    /// The book ends; the next begins empty.
    fn drop_command(&mut self) {
        self.tally.drop_write();
        self.book = Book::default();
    }

    fn take(&mut self, packet: &[u8]) {
        match self.tally.take(packet) {
            Arrived::Wrapper => match Cbw::accept(packet, self.tally.units()) {
                Some(Cbw { tag, announced, .. }) => {
                    self.book.commands.push(Command { tag, announced, counted: 0 });
                }
                None => self.book.unreadable += 1,
            },
            Arrived::Block => self.book.count(BLOCK),
            Arrived::Data => {}
        }
    }

    fn hand_out(&mut self, bytes: &[u8]) {
        match status(bytes) {
            Some(status) => self.book.statuses.push(status),
            None => self.book.count(bytes.len()),
        }
    }
}

/// Whether an acked request drops the command.
fn drops(setup: &[u8]) -> bool {
    let request = setup.try_into().ok().and_then(Request::read);
    matches!(request, Some(Request::SetConfiguration(_) | Request::MassStorageReset))
}

/// A packet of 13 bytes that opens as a status wrapper; no reply does, and a Read hands out packets of 64.
fn status(bytes: &[u8]) -> Option<Status> {
    let csw: &[u8; CSW_SIZE] = bytes.try_into().ok()?;
    let number = |at| u32::from_le_bytes([csw[at], csw[at + 1], csw[at + 2], csw[at + 3]]);
    (csw[..4] == CSW_SIGNATURE).then(|| Status { tag: number(4), residue: number(8) })
}

impl fmt::Display for Fault {
    fn fmt(&self, f: &mut fmt::Formatter) -> fmt::Result {
        match *self {
            Fault::Unreadable => write!(f, "a packet was acked as a command wrapper that is none"),
            Fault::Stray(bytes) => write!(f, "{bytes} bytes of data without a command"),
            Fault::Number { commands, statuses } => write!(f, "{commands} commands, {statuses} statuses"),
            Fault::Tag { place } => write!(f, "status {} has not its command's tag", place + 1),
            Fault::Residue { place } => {
                write!(f, "command {}: announced is not residue and bytes counted", place + 1)
            }
        }
    }
}
