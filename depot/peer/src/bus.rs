//! The bus: the host's transfers, cut into the packets that a full-speed bus would carry, and put to the device one by one.

use crate::collector::{Answer, Collector, Event, PACKET};
use crate::log::{answer_text, Log};
use crate::redir::{Bulk, Control, Status};
use crate::switch::Turn;
use std::collections::VecDeque;

/// A bulk transfer under way. `done` counts the bytes that went; `data` holds them where they came in.
pub struct Transfer {
    pub id: u64,
    pub asked: Bulk,
    pub done: usize,
    pub data: Vec<u8>,
}

/// A transfer that ended, and how.
pub struct Ended {
    pub transfer: Transfer,
    pub status: Status,
}

pub struct Bus {
    device: Collector,
    inward: VecDeque<Transfer>,
    outward: VecDeque<Transfer>,
    /// A turn that is to come, and how many more packets outward come first.
    turn: Option<(Turn, usize)>,
    /// The first refusal, if the device ever gave one: its number and count.
    pub refused: Option<(u32, usize)>,
}

impl Bus {
    pub fn new(device: Collector) -> Self {
        Bus { device, inward: VecDeque::new(), outward: VecDeque::new(), turn: None, refused: None }
    }

    pub fn medium(&self) -> &[u8] {
        self.device.medium()
    }

    /// Unplugged: the device is gone, its medium stays.
    pub fn into_medium(self) -> Vec<u8> {
        self.device.into_medium()
    }

    fn put(&mut self, event: Event, log: &mut Log) -> Answer {
        let answer = self.device.event(&event);
        log.event(&event, &answer);
        if let Answer::Refused { number, count } = answer {
            self.refused.get_or_insert((number, count));
        }
        answer
    }

    /// Turns a switch, which nothing on the bus can do.
    pub fn switch(&mut self, turn: Turn, log: &mut Log) -> Result<(), String> {
        match self.put(Event::Switch(turn), log) {
            Answer::Ack => Ok(()),
            answer => Err(format!("turning was answered: {}", answer_text(&answer))),
        }
    }

    /// Turns a switch once the device has taken so many more packets outward: in the middle of a Write, if it is one.
    pub fn switch_after(&mut self, turn: Turn, packets: usize) {
        self.turn = Some((turn, packets));
    }

    /// The device has taken a packet outward.
    fn count(&mut self, log: &mut Log) {
        match self.turn.take() {
            Some((turn, 1)) => {
                self.put(Event::Switch(turn), log);
            }
            later => self.turn = later.map(|(turn, packets)| (turn, packets - 1)),
        }
    }

    /// A bus reset ends the transfers under way.
    pub fn reset(&mut self, log: &mut Log) -> Vec<Ended> {
        self.put(Event::Reset, log);
        let under_way = self.inward.drain(..).chain(self.outward.drain(..));
        under_way.map(|transfer| Ended { transfer, status: Status::Cancelled }).collect()
    }

    pub fn control(&mut self, asked: &Control, log: &mut Log) -> (Status, Vec<u8>) {
        match self.put(Event::Setup(asked.setup), log) {
            Answer::Data(bytes) => (Status::Success, bytes),
            Answer::Ack => (Status::Success, vec![]),
            Answer::Stall => (Status::Stall, vec![]),
            Answer::Shown(_) | Answer::Nak | Answer::Silent | Answer::Refused { .. } => {
                (Status::IoError, vec![])
            }
        }
    }

    pub fn begin(&mut self, id: u64, asked: Bulk) {
        let queue = if asked.endpoint & 0x80 != 0 { &mut self.inward } else { &mut self.outward };
        queue.push_back(Transfer { id, asked, done: 0, data: vec![] });
    }

    /// Takes a transfer back that the host no longer wants; one that has ended already is not found.
    pub fn cancel(&mut self, id: u64, log: &mut Log) -> Option<Ended> {
        for queue in [&mut self.inward, &mut self.outward] {
            if let Some(at) = queue.iter().position(|transfer| transfer.id == id) {
                let transfer = queue.remove(at)?;
                log.note(&format!("cancelled after {} bytes", transfer.done));
                return Some(Ended { transfer, status: Status::Cancelled });
            }
        }
        None
    }

    /// Goes on with the transfers until each has ended or the device says nak: then it waits for the next thing that the bus brings.
    pub fn go_on(&mut self, log: &mut Log) -> Vec<Ended> {
        let mut ended = vec![];
        loop {
            let before = ended.len();
            while let Some(mut transfer) = self.outward.pop_front() {
                match self.send(&mut transfer, log) {
                    Some(status) => ended.push(Ended { transfer, status }),
                    None => {
                        self.outward.push_front(transfer);
                        break;
                    }
                }
            }
            while let Some(mut transfer) = self.inward.pop_front() {
                match self.ask(&mut transfer, log) {
                    Some(status) => ended.push(Ended { transfer, status }),
                    None => {
                        self.inward.push_front(transfer);
                        break;
                    }
                }
            }
            // What ended may have made the other pipe ready.
            if ended.len() == before {
                return ended;
            }
        }
    }

    /// Packets outward until the bytes are gone; a transfer of no bytes is one empty packet. None: nak, later.
    fn send(&mut self, transfer: &mut Transfer, log: &mut Log) -> Option<Status> {
        loop {
            let rest = &transfer.asked.data[transfer.done..];
            let packet = &rest[..rest.len().min(PACKET)];
            match self.put(Event::Out(packet), log) {
                Answer::Ack => {
                    transfer.done += packet.len();
                    self.count(log);
                }
                Answer::Nak => return None,
                Answer::Stall => return Some(Status::Stall),
                Answer::Data(_) | Answer::Shown(_) | Answer::Silent | Answer::Refused { .. } => {
                    return Some(Status::IoError)
                }
            }
            if transfer.done == transfer.asked.data.len() {
                return Some(Status::Success);
            }
        }
    }

    /// Asks inward until the length is there or a packet is short. None: nak, later.
    fn ask(&mut self, transfer: &mut Transfer, log: &mut Log) -> Option<Status> {
        loop {
            match self.put(Event::In, log) {
                Answer::Data(bytes) | Answer::Shown(bytes) => {
                    transfer.data.extend(&bytes);
                    transfer.done += bytes.len();
                    if bytes.len() < PACKET || transfer.done >= transfer.asked.length {
                        return Some(Status::Success);
                    }
                }
                Answer::Nak => return None,
                Answer::Stall => return Some(Status::Stall),
                Answer::Ack | Answer::Silent | Answer::Refused { .. } => return Some(Status::IoError),
            }
        }
    }
}
