//! A host that asks by the showing call (document 02, A11), and is told where each packet stands.

use crate::bench::Bench;
use ordinary::device::Answer;
use ordinary::show::Shown;
use std::ops::Range;

/// The bytes of a shown packet, by what they stand in.
#[derive(Clone, Debug, PartialEq, Eq)]
pub enum Stands {
    Medium(Range<usize>),
    Reply(Range<usize>),
}

/// The part's place in what was lent; `None` where it is not of that.
fn place(part: &[u8], lent: &[u8]) -> Option<Range<usize>> {
    let start = part.as_ptr().addr().checked_sub(lent.as_ptr().addr())?;
    let end = start + part.len();
    (end <= lent.len()).then_some(start..end)
}

impl Bench {
    /// Where the packet that is due stands; the error is any other answer, and then no byte is shown.
    pub fn show(&mut self, reply: &[u8]) -> Result<Stands, Answer> {
        // Memory of its own, apart from the medium's.
        let reply = reply.to_vec();
        let Shown { answer, packet } = self.device.show(&self.units, &self.medium, &reply);
        let Answer::Data(count) = answer else {
            assert_eq!(packet, [0; 0]);
            return Err(answer);
        };
        assert_eq!((packet.len(), packet.is_empty()), (count as usize, false));
        let medium = place(packet, &self.medium).map(Stands::Medium);
        Ok(medium.or(place(packet, &reply).map(Stands::Reply)).expect("the packet is of what was lent"))
    }

    /// The bytes shown with the record's reply lent, as an ask would give them.
    pub fn shown(&mut self) -> Result<Vec<u8>, Answer> {
        let reply = self.reply();
        Ok(match self.show(&reply)? {
            Stands::Medium(bytes) => self.medium[bytes].to_vec(),
            Stands::Reply(bytes) => reply[bytes].to_vec(),
        })
    }

    /// A showing call that must not be answered with data, and must then change nothing.
    pub fn shows_nothing(&mut self, reply: &[u8], answer: Answer) {
        let before = self.device.clone();
        assert_eq!(self.show(reply), Err(answer), "{reply:02X?}");
        assert_eq!(self.device, before, "{reply:02X?}");
    }

    /// The record's reply, which must be given; the rest of the buffer keeps its bytes.
    pub fn reply(&self) -> Vec<u8> {
        let mut buffer = [0xEE; 70];
        let Answer::Data(count) = self.device.reply(&self.units, &mut buffer) else { panic!("no reply") };
        let (reply, rest) = buffer.split_at(count as usize);
        assert!(rest.iter().all(|byte| *byte == 0xEE));
        reply.to_vec()
    }
}
