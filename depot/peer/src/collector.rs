//! The collector behind its C interface: one device over its units and one medium, the four events of its bus, and its switches.

use crate::capi::{
    collector_bulk_in, collector_bulk_out, collector_bus_reset, collector_control, collector_make,
    collector_set_switch, collector_show, Record, RECORD, SOURCE_MEDIUM,
};
use crate::switch::Turn;
use crate::unit::{self, Unit};

/// The packets' size: document 01 has no other.
pub const PACKET: usize = 64;

/// The numbers given at making.
#[derive(Clone, Copy, Default)]
pub struct Identity {
    pub number: u64,
    pub vendor: u16,
    pub product: u16,
    pub release: u16,
}

/// One thing that the bus brings, or a hand at a switch (document 02, A4).
pub enum Event<'a> {
    Reset,
    Setup([u8; 8]),
    Out(&'a [u8]),
    In,
    Switch(Turn),
}

/// Document 01's "Numbers that come back", as far as a bus can see them.
#[derive(Clone, PartialEq, Eq)]
pub enum Answer {
    Data(Vec<u8>),
    /// A packet of a Read, which the device has shown where it stands in the medium (document 02, A11).
    Shown(Vec<u8>),
    Ack,
    Nak,
    Stall,
    Silent,
    /// A number of 10 and over, which a peer that keeps to the interface never sees, or a count that the interface does not allow.
    Refused {
        number: u32,
        count: usize,
    },
}

pub struct Collector {
    record: Box<Record>,
    units: Vec<Unit>,
    medium: Vec<u8>,
}

impl Collector {
    /// A newly made device with units of these sizes over a medium, or the number of the refusal and the medium back.
    pub fn make(identity: Identity, sizes: &[u32], medium: Vec<u8>) -> Result<Self, (u32, Vec<u8>)> {
        let mut record = Box::new(Record([0; RECORD]));
        let mut units = unit::table(sizes);
        let Identity { number, vendor, product, release } = identity;
        // SAFETY: record and units have the sizes and alignments of C's, units and medium are valid for their lengths, and none outlives the call.
        let raw = unsafe {
            collector_make(
                &mut *record,
                number,
                vendor,
                product,
                release,
                units.as_mut_ptr(),
                units.len(),
                medium.as_ptr(),
                medium.len(),
            )
        };
        if (raw.number, raw.count) == (1, 0) {
            Ok(Collector { record, units, medium })
        } else {
            Err((raw.number, medium))
        }
    }

    pub fn medium(&self) -> &[u8] {
        &self.medium
    }

    pub fn into_medium(self) -> Vec<u8> {
        self.medium
    }

    /// Has the device show the packet that the host asks for. It is lent no reply, so that it can show a Read's alone. None: it
    /// showed nothing and nothing has changed; whatever is due is to be copied.
    fn show(&mut self) -> Option<Answer> {
        let record = &mut *self.record as *mut Record;
        let (units, medium, no_reply) = (&self.units, &self.medium, []);
        // SAFETY: as of `call`. What is shown is looked at while the medium cannot change.
        let shown = unsafe {
            collector_show(
                record,
                units.as_ptr(),
                units.len(),
                medium.as_ptr(),
                medium.len(),
                no_reply.as_ptr(),
                no_reply.len(),
            )
        };
        if shown.number != 0 {
            return None;
        }
        let packet = medium.get(shown.start..).and_then(|rest| rest.get(..shown.count));
        Some(match packet {
            Some(packet @ [_, ..]) if shown.source == SOURCE_MEDIUM && packet.len() <= PACKET => {
                Answer::Shown(packet.to_vec())
            }
            _ => Answer::Refused { number: 0, count: shown.count },
        })
    }

    pub fn event(&mut self, event: &Event) -> Answer {
        match event {
            Event::In => self.show().unwrap_or_else(|| self.call(event)),
            _ => self.call(event),
        }
    }

    fn call(&mut self, event: &Event) -> Answer {
        let mut buffer = [0u8; PACKET];
        let record = &mut *self.record as *mut Record;
        let (units, count) = (self.units.as_mut_ptr(), self.units.len());
        let medium = &mut self.medium;
        // SAFETY: each pointer is valid for the length beside it, record, units and buffers are distinct, and calls come one after another.
        let raw = unsafe {
            match event {
                Event::Reset => collector_bus_reset(record, units, count),
                Event::Setup(bytes) => collector_control(
                    record,
                    units,
                    count,
                    bytes.as_ptr(),
                    bytes.len(),
                    buffer.as_mut_ptr(),
                    buffer.len(),
                ),
                Event::Out(packet) => collector_bulk_out(
                    record,
                    units,
                    count,
                    medium.as_mut_ptr(),
                    medium.len(),
                    packet.as_ptr(),
                    packet.len(),
                ),
                Event::In => collector_bulk_in(
                    record,
                    units,
                    count,
                    medium.as_ptr(),
                    medium.len(),
                    buffer.as_mut_ptr(),
                    buffer.len(),
                ),
                Event::Switch(Turn { position, unit }) => {
                    collector_set_switch(record, units, count, *position as u8, *unit)
                }
            }
        };
        match (raw.number, raw.count) {
            (0, count @ 0..=PACKET) => Answer::Data(buffer[..count].to_vec()),
            (1, 0) => Answer::Ack,
            (2, 0) => Answer::Nak,
            (3, 0) => Answer::Stall,
            (4, 0) => Answer::Silent,
            (number, count) => Answer::Refused { number, count },
        }
    }
}
