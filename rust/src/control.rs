//! The control pipe (§ Control requests).

use crate::device::{Answer, Device, Refusal, PACKET};
use crate::unit::Unit;
use crate::usb::{write_descriptor, Endpoint, Request};

impl Device {
    #[inline(never)]
    pub fn control(&mut self, units: &mut [Unit], setup: &[u8], buffer: &mut [u8]) -> Answer {
        if !self.fits(units) {
            return Answer::Refused(Refusal::Record);
        }
        if buffer.len() < PACKET {
            return Answer::Refused(Refusal::Buffer);
        }
        let Ok(setup) = setup.try_into() else {
            return Answer::Refused(Refusal::Setup);
        };
        match Request::read(setup) {
            Some(request) => self.request(request, units, buffer),
            None => Answer::Stall,
        }
    }

    fn request(&mut self, request: Request, units: &mut [Unit], buffer: &mut [u8]) -> Answer {
        match request {
            Request::SetAddress(address) if !self.configured => {
                self.address = address;
                Answer::Ack
            }
            Request::SetConfiguration(configured) => {
                self.drop_command(units);
                self.halt_in = false;
                self.halt_out = false;
                self.configured = configured;
                Answer::Ack
            }
            Request::GetConfiguration => send(buffer, &[self.configured.into()]),
            Request::DeviceStatus => send(buffer, &[1, 0]),
            Request::InterfaceStatus if self.configured => send(buffer, &[0, 0]),
            Request::EndpointStatus(Endpoint::Control) => send(buffer, &[0, 0]),
            Request::EndpointStatus(Endpoint::BulkIn) if self.configured => {
                send(buffer, &[self.halt_in.into(), 0])
            }
            Request::EndpointStatus(Endpoint::BulkOut) if self.configured => {
                send(buffer, &[self.halt_out.into(), 0])
            }
            Request::ClearHalt(Endpoint::Control) => Answer::Ack,
            Request::ClearHalt(endpoint) if self.configured => self.set_halt(endpoint, false),
            Request::SetHalt(endpoint) if self.configured => self.set_halt(endpoint, true),
            Request::MassStorageReset if self.configured => {
                self.drop_command(units);
                Answer::Ack
            }
            Request::GetMaxLun if self.configured => send(buffer, &[units.len() as u8 - 1]),
            Request::GetDescriptor { value, length } => {
                Answer::Data(write_descriptor(&self.identity, value, length, buffer))
            }
            _ => Answer::Stall,
        }
    }

    /// Sets or clears a bulk pipe's halt; the control pipe cannot be halted. The lock keeps both halts.
    fn set_halt(&mut self, endpoint: Endpoint, halt: bool) -> Answer {
        match endpoint {
            Endpoint::BulkIn => self.halt_in = halt || self.locked,
            Endpoint::BulkOut => self.halt_out = halt || self.locked,
            Endpoint::Control => return Answer::Stall,
        }
        Answer::Ack
    }
}

fn send(buffer: &mut [u8], bytes: &[u8]) -> Answer {
    buffer[..bytes.len()].copy_from_slice(bytes);
    Answer::Data(bytes.len() as u32)
}
