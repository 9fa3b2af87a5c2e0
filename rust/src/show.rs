//! The next packet of data shown where it stands, in the lent medium or in the lent reply, instead of copied (document 02,
//! A11).

use crate::data_in::Packet;
use crate::device::{Answer, Device, Refusal, Source, Stage, BLOCK, PACKET};
use crate::scsi::LONGEST_REPLY;
use crate::unit::Unit;

/// What a showing call gives.
#[derive(Clone, Copy, Debug, PartialEq, Eq)]
pub struct Shown<'a> {
    pub answer: Answer,
    /// A part of what was lent; empty without data.
    pub packet: &'a [u8],
}

impl Shown<'_> {
    fn nothing(answer: Answer) -> Shown<'static> {
        Shown { answer, packet: &[] }
    }
}

impl Device {
    /// The lent reply must be the one that `reply` gives. A status is not data: it is left to the copying call.
    #[inline(never)]
    pub fn show<'a>(&mut self, units: &[Unit], medium: &'a [u8], reply: &'a [u8]) -> Shown<'a> {
        let Some(blocks) = self.blocks(units).filter(|_| self.is_reply(reply)) else {
            return Shown::nothing(Answer::Refused(Refusal::Record));
        };
        if medium.len() != blocks as usize * BLOCK {
            return Shown::nothing(Answer::Refused(Refusal::Medium));
        }
        if let Some(answer) = self.shut_in() {
            return Shown::nothing(answer);
        }
        let Some(Packet { source, start, count }) = self.due_packet(units) else {
            return Shown::nothing(Answer::Nak);
        };
        let lent = match source {
            Source::Medium => medium,
            Source::Reply(_) => reply,
        };
        let packet = &lent[start..start + count as usize];
        self.pass(count);
        Shown { answer: Answer::Data(count), packet }
    }

    /// Writes the reply in hand, as its allocation length cuts it, to the buffer: nothing where none is. Nothing else
    /// changes.
    #[inline(never)]
    pub fn reply(&self, units: &[Unit], buffer: &mut [u8]) -> Answer {
        if !self.fits(units) {
            return Answer::Refused(Refusal::Record);
        }
        if buffer.len() < PACKET {
            return Answer::Refused(Refusal::Buffer);
        }
        Answer::Data(self.write_reply(buffer) as u32)
    }

    /// Whether these bytes are the reply in hand. The state fits together.
    fn is_reply(&self, lent: &[u8]) -> bool {
        if !matches!(self.stage, Stage::DataIn { source: Source::Reply(_), .. }) {
            return lent.is_empty();
        }
        let mut own = [0; LONGEST_REPLY];
        let size = self.write_reply(&mut own);
        own[..size] == *lent
    }

    /// The reply in hand reaches to the last byte still due, those sent already included. Its size is given back.
    fn write_reply(&self, out: &mut [u8]) -> usize {
        match self.stage {
            Stage::DataIn { source: Source::Reply(reply), place, left } => {
                let size = (place + left) as usize;
                reply.write(&self.identity, 0, &mut out[..size]);
                size
            }
            _ => 0,
        }
    }
}
