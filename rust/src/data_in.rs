//! Data in: the packet that is due, where it stands, and the step past it. The copying and the showing call share it.

use crate::device::{Answer, Device, Source, Stage, PACKET};
use crate::unit::Unit;
use crate::wrapper::Status;

/// A packet of data: `count` bytes from `start` on, in the medium or in the reply.
pub(crate) struct Packet<'a> {
    pub source: &'a Source,
    pub start: usize,
    pub count: u32,
}

impl Device {
    /// The answer of a bulk-in pipe that gives nothing, whatever is due.
    pub(crate) fn shut_in(&self) -> Option<Answer> {
        match (self.configured, self.halt_in) {
            (false, _) => Some(Answer::Silent),
            (true, true) => Some(Answer::Stall),
            (true, false) => None,
        }
    }

    /// Hands out the next packet, from the medium as it now is or from the reply.
    pub(crate) fn send_data(&mut self, units: &[Unit], medium: &[u8], buffer: &mut [u8]) -> Answer {
        let Some(Packet { source, start, count }) = self.due_packet(units) else {
            return Answer::Nak;
        };
        let size = count as usize;
        match source {
            // Nearly always: a copy of fixed size, without a call.
            Source::Medium if size == PACKET => {
                buffer[..PACKET].copy_from_slice(&medium[start..start + PACKET]);
            }
            Source::Medium => buffer[..size].copy_from_slice(&medium[start..start + size]),
            Source::Reply(reply) => reply.write(&self.identity, start, &mut buffer[..size]),
        }
        self.pass(count);
        Answer::Data(count)
    }

    /// The data packet that is due; `None` where none is, as in a record that was never reached and has a transfer with
    /// nothing left.
    pub(crate) fn due_packet(&self, units: &[Unit]) -> Option<Packet<'_>> {
        let Stage::DataIn { source, place, left: left @ 1.. } = &self.stage else {
            return None;
        };
        let start = match source {
            Source::Medium => units[usize::from(self.pending.unit)].byte(*place),
            Source::Reply(_) => *place as usize,
        };
        Some(Packet { source, start, count: (*left).min(PACKET as u32) })
    }

    /// Goes on past the packet that was due.
    pub(crate) fn pass(&mut self, count: u32) {
        if let Stage::DataIn { place, left, .. } = &mut self.stage {
            *place += count;
            *left -= count;
            self.pending.residue -= count;
            if *left == 0 {
                self.finish(Status::Passed, true);
            }
        }
    }
}
