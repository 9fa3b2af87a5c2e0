//! Histories as an accountant sees them (document 02, A13): events with their answers, and nothing of the device.

use crate::bench::{for_unit, wrapper, Bench};
use ordinary::device::Answer;
use ordinary::ledger::{Book, Event, Fault, Ledger};

/// The units of every history.
pub const SIZES: [u32; 2] = [4, 3];

pub const DATA: u32 = 0;
pub const ACK: u32 = 1;
pub const STALL: u32 = 3;

#[derive(Clone, Debug, PartialEq, Eq)]
pub enum Told {
    BusReset,
    Control([u8; 8]),
    BulkOut(Vec<u8>),
    BulkIn,
    Show,
    Switch { position: u8, unit: u8 },
}

/// An event, its answer's number, and the bytes handed out.
#[derive(Clone, Debug, PartialEq, Eq)]
pub struct Entry {
    pub event: Told,
    pub number: u32,
    pub bytes: Vec<u8>,
}

impl Entry {
    pub fn acked(event: Told) -> Entry {
        Entry { event, number: ACK, bytes: vec![] }
    }

    pub fn note(&self, ledger: &mut Ledger) {
        let event = match &self.event {
            Told::BusReset => Event::BusReset,
            Told::Control(setup) => Event::Control { setup },
            Told::BulkOut(packet) => Event::BulkOut { packet },
            Told::BulkIn => Event::BulkIn,
            Told::Show => Event::Show,
            Told::Switch { position, unit } => Event::Switch { position: *position, unit: *unit },
        };
        ledger.note(event, self.number, &self.bytes);
    }

    /// What the device makes of the event.
    pub fn play(&self, bench: &mut Bench) -> Entry {
        let answer = match &self.event {
            Told::BusReset => Err(bench.bus_reset()),
            Told::Control(setup) => bench.control(*setup).and(Err(Answer::Ack)),
            Told::BulkOut(packet) => Err(bench.send(packet)),
            Told::BulkIn => bench.ask(),
            Told::Show => bench.shown(),
            Told::Switch { position, unit } => Err(bench.turn(*position, *unit)),
        };
        let number = answer.as_ref().map_or_else(|answer| answer.number(), |_| DATA);
        Entry { event: self.event.clone(), number, bytes: answer.unwrap_or_default() }
    }
}

/// A command wrapper, acked.
pub fn command(tag: u32, unit: u8, announced: u32, data_in: bool, block: &[u8]) -> Entry {
    let mut packet = for_unit(unit, wrapper(announced, data_in, block));
    packet[4..8].copy_from_slice(&tag.to_le_bytes());
    Entry::acked(Told::BulkOut(packet))
}

/// A data-out packet of so many bytes, acked.
pub fn sent(length: usize) -> Entry {
    Entry::acked(Told::BulkOut(vec![0xAB; length]))
}

/// An ask that these bytes are handed out to.
pub fn given(bytes: &[u8]) -> Entry {
    Entry { event: Told::BulkIn, number: DATA, bytes: bytes.to_vec() }
}

/// An ask on the halted pipe, and the halt cleared.
pub fn halted() -> [Entry; 2] {
    let stalled = Entry { event: Told::BulkIn, number: STALL, bytes: vec![] };
    [stalled, done([0x02, 0x01, 0, 0, 0x81, 0, 0, 0])]
}

pub fn status(tag: u32, residue: u32, verdict: u8) -> Entry {
    given(&[&b"USBS"[..], &tag.to_le_bytes(), &residue.to_le_bytes(), &[verdict]].concat())
}

/// A control request, acked.
pub fn done(setup: [u8; 8]) -> Entry {
    Entry::acked(Told::Control(setup))
}

/// The open book at the end, or the place of the first entry that leaves it out of balance.
pub fn audit(history: &[Entry]) -> Result<Book, (usize, Fault)> {
    let mut ledger = Ledger::new(&SIZES);
    for (place, entry) in history.iter().enumerate() {
        entry.note(&mut ledger);
        ledger.book().balance().map_err(|fault| (place, fault))?;
    }
    Ok(ledger.book().clone())
}
