//! The bulk pipes: command wrapper, data, status wrapper (§ Wrappers, § The thirteen meetings).

use crate::cases::Case;
use crate::device::{Answer, Device, Pending, Refusal, Source, Stage, BLOCK, PACKET};
use crate::scsi::{self, Data, Sense};
use crate::switch::Switch;
use crate::unit::Unit;
use crate::wrapper::{Cbw, Csw, Status, CSW_SIZE};

impl Device {
    #[inline(never)]
    pub fn bulk_out(&mut self, units: &mut [Unit], medium: &mut [u8], packet: &[u8]) -> Answer {
        let Some(blocks) = self.blocks(units) else {
            return Answer::Refused(Refusal::Record);
        };
        if medium.len() != blocks as usize * BLOCK {
            return Answer::Refused(Refusal::Medium);
        }
        if packet.len() > PACKET {
            return Answer::Refused(Refusal::Packet);
        }
        if !self.configured {
            return Answer::Silent;
        }
        if self.halt_out {
            return Answer::Stall;
        }
        match self.stage {
            Stage::Ready => self.take_wrapper(units, packet),
            _ => self.take_data(units, medium, packet),
        }
    }

    #[inline(never)]
    pub fn bulk_in(&mut self, units: &[Unit], medium: &[u8], buffer: &mut [u8]) -> Answer {
        let Some(blocks) = self.blocks(units) else {
            return Answer::Refused(Refusal::Record);
        };
        if medium.len() != blocks as usize * BLOCK {
            return Answer::Refused(Refusal::Medium);
        }
        if buffer.len() < PACKET {
            return Answer::Refused(Refusal::Buffer);
        }
        if let Some(answer) = self.shut_in() {
            return answer;
        }
        match self.stage {
            Stage::Status(status) => self.send_status(status, buffer),
            _ => self.send_data(units, medium, buffer),
        }
    }

    fn take_wrapper(&mut self, units: &mut [Unit], packet: &[u8]) -> Answer {
        match Cbw::accept(packet, units.len()) {
            Some(cbw) => {
                self.begin(&mut units[usize::from(cbw.unit)], &cbw);
                Answer::Ack
            }
            None => {
                self.lock();
                Answer::Stall
            }
        }
    }

    /// Decides the unit's command and its meeting with what the host announces.
    fn begin(&mut self, unit: &mut Unit, cbw: &Cbw) {
        let Cbw { tag, announced, .. } = *cbw;
        self.pending = Pending { tag, announced, residue: announced, unit: cbw.unit };
        let switch = if unit.closed() { Switch::Closed } else { Switch::Open };
        let outcome = scsi::decide(cbw.block, unit.sense(), unit.blocks, switch);
        let data = outcome.unwrap_or(Data::None);
        if Case::of(cbw, &data).is_phase_error() {
            // Found before the command ran: sense and medium stay.
            self.finish(Status::PhaseError, cbw.data_in);
            return;
        }
        unit.set_sense(outcome.err().unwrap_or(Sense::NONE));
        match data {
            Data::None => {
                let status = if outcome.is_ok() { Status::Passed } else { Status::Failed };
                self.finish(status, cbw.data_in);
            }
            Data::Reply { reply, length } => {
                self.stage = Stage::DataIn { source: Source::Reply(reply), place: 0, left: length };
            }
            Data::Read { block, count } => {
                let (place, left) = (block * BLOCK as u32, count * BLOCK as u32);
                self.stage = Stage::DataIn { source: Source::Medium, place, left };
            }
            Data::Write { block, count } => {
                self.stage = Stage::DataOut { block, left: count, held: 0 };
            }
        }
    }

    /// The data is done: status is due, and a host that announced more is told by a halt of its pipe.
    pub(crate) fn finish(&mut self, status: Status, data_in: bool) {
        if self.pending.residue > 0 {
            if data_in {
                self.halt_in = true;
            } else {
                self.halt_out = true;
            }
        }
        self.stage = Stage::Status(status);
    }

    /// Gathers a packet in the part block, and stores the block once it is whole. A record that was never reached
    /// may have a transfer with nothing left: nothing is due then, in either direction.
    fn take_data(&mut self, units: &mut [Unit], medium: &mut [u8], packet: &[u8]) -> Answer {
        let Stage::DataOut { block, left: left @ 1.., held } = &mut self.stage else {
            return Answer::Nak;
        };
        let unit = &mut units[usize::from(self.pending.unit)];
        let Ok(packet) = <&[u8; PACKET]>::try_from(packet) else {
            self.part = [0; BLOCK];
            unit.set_sense(Sense::DATA_PHASE_ERROR);
            self.halt_out = true;
            self.stage = Stage::Status(Status::PhaseError);
            return Answer::Ack;
        };
        let place = *held as usize;
        self.part[place..place + PACKET].copy_from_slice(packet);
        *held += PACKET as u32;
        if *held < BLOCK as u32 {
            return Answer::Ack;
        }
        let place = unit.byte(*block * BLOCK as u32);
        medium[place..place + BLOCK].copy_from_slice(&self.part);
        self.part = [0; BLOCK];
        *held = 0;
        *block += 1;
        *left -= 1;
        self.pending.residue -= BLOCK as u32;
        if *left == 0 {
            self.finish(Status::Passed, false);
        }
        Answer::Ack
    }

    fn send_status(&mut self, status: Status, buffer: &mut [u8]) -> Answer {
        let Pending { tag, residue, .. } = self.pending;
        Csw { tag, residue, status }.write(&mut buffer[..CSW_SIZE]);
        self.pending = Pending::NONE;
        self.stage = Stage::Ready;
        if status == Status::PhaseError {
            self.lock();
        }
        Answer::Data(CSW_SIZE as u32)
    }
}
