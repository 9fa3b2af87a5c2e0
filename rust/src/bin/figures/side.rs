//! The two devices under one name each, so that both are driven by the same loops.

use crate::scene::{Input, State};
use ordinary::capi::{self, source, CShown};
use ordinary::device::{Device, PACKET};
use ordinary::record::Record;
use ordinary::show::Shown;
use ordinary::unit::{Unit, MAX_UNITS};
use std::hint::black_box;

/// A shown packet, as a controller takes it: document 01's number, the first byte's address and the count.
pub struct Seen {
    pub number: u32,
    pub packet: *const u8,
    pub count: usize,
}

pub trait Side: Clone {
    fn new(record: &Record) -> Self;
    /// Each gives back document 01's number.
    fn control(&mut self, units: &mut [Unit], setup: &[u8], buffer: &mut [u8]) -> u32;
    fn bulk_out(&mut self, units: &mut [Unit], medium: &mut [u8], packet: &[u8]) -> u32;
    fn bulk_in(&mut self, units: &[Unit], medium: &[u8], buffer: &mut [u8]) -> u32;
    fn set_switch(&mut self, units: &mut [Unit], position: u8, unit: u8) -> u32;
    fn show(&mut self, units: &[Unit], medium: &[u8], reply: &[u8]) -> Seen;
}

impl Side for Device {
    fn new(record: &Record) -> Device {
        Device::from_record(record).expect("the record was written by the device")
    }

    fn control(&mut self, units: &mut [Unit], setup: &[u8], buffer: &mut [u8]) -> u32 {
        Device::control(self, units, setup, buffer).number()
    }

    fn bulk_out(&mut self, units: &mut [Unit], medium: &mut [u8], packet: &[u8]) -> u32 {
        Device::bulk_out(self, units, medium, packet).number()
    }

    fn bulk_in(&mut self, units: &[Unit], medium: &[u8], buffer: &mut [u8]) -> u32 {
        Device::bulk_in(self, units, medium, buffer).number()
    }

    fn set_switch(&mut self, units: &mut [Unit], position: u8, unit: u8) -> u32 {
        Device::set_switch(self, units, position, unit).number()
    }

    fn show(&mut self, units: &[Unit], medium: &[u8], reply: &[u8]) -> Seen {
        let Shown { answer, packet } = Device::show(self, units, medium, reply);
        Seen { number: answer.number(), packet: packet.as_ptr(), count: packet.len() }
    }
}

/// The proved device is its record.
impl Side for Record {
    fn new(record: &Record) -> Record {
        *record
    }

    fn control(&mut self, units: &mut [Unit], setup: &[u8], buffer: &mut [u8]) -> u32 {
        capi::control(self, units, setup, buffer).number
    }

    fn bulk_out(&mut self, units: &mut [Unit], medium: &mut [u8], packet: &[u8]) -> u32 {
        capi::bulk_out(self, units, medium, packet).number
    }

    fn bulk_in(&mut self, units: &[Unit], medium: &[u8], buffer: &mut [u8]) -> u32 {
        capi::bulk_in(self, units, medium, buffer).number
    }

    fn set_switch(&mut self, units: &mut [Unit], position: u8, unit: u8) -> u32 {
        capi::set_switch(self, units, position, unit).number
    }

    /// The address is made as the header's `collector_packet` makes it.
    fn show(&mut self, units: &[Unit], medium: &[u8], reply: &[u8]) -> Seen {
        let CShown { number, source, start, count } = capi::show(self, units, medium, reply);
        let from = if source == source::REPLY { reply } else { medium };
        Seen { number, packet: from.as_ptr().wrapping_add(start), count }
    }
}

/// A device that reads one flag, which is 0: what a loop and its calls cost. It is as large as the others.
#[derive(Clone)]
pub struct Idle(Record);

impl Side for Idle {
    fn new(record: &Record) -> Idle {
        Idle(*record)
    }

    #[inline(never)]
    fn control(&mut self, _: &mut [Unit], _: &[u8], _: &mut [u8]) -> u32 {
        black_box(self).0.locked().into()
    }

    #[inline(never)]
    fn bulk_out(&mut self, _: &mut [Unit], _: &mut [u8], _: &[u8]) -> u32 {
        black_box(self).0.locked().into()
    }

    #[inline(never)]
    fn bulk_in(&mut self, _: &[Unit], _: &[u8], _: &mut [u8]) -> u32 {
        black_box(self).0.locked().into()
    }

    #[inline(never)]
    fn set_switch(&mut self, _: &mut [Unit], _: u8, _: u8) -> u32 {
        black_box(self).0.locked().into()
    }

    #[inline(never)]
    fn show(&mut self, _: &[Unit], medium: &[u8], _: &[u8]) -> Seen {
        Seen { number: black_box(self).0.locked().into(), packet: medium.as_ptr(), count: 0 }
    }
}

/// A device and the table that is lent to it.
#[derive(Clone)]
pub struct Seat<S> {
    device: S,
    table: [Unit; MAX_UNITS],
    count: usize,
}

impl<S: Side> Seat<S> {
    pub fn new(state: &State) -> Seat<S> {
        let (mut table, count) = ([Unit::new(0, 0); MAX_UNITS], state.units.len());
        table[..count].copy_from_slice(&state.units);
        Seat { device: S::new(&state.record), table, count }
    }

    pub fn control(&mut self, setup: &[u8], buffer: &mut [u8]) -> u32 {
        self.device.control(&mut self.table[..self.count], setup, buffer)
    }

    pub fn bulk_out(&mut self, medium: &mut [u8], packet: &[u8]) -> u32 {
        self.device.bulk_out(&mut self.table[..self.count], medium, packet)
    }

    pub fn bulk_in(&mut self, medium: &[u8], buffer: &mut [u8]) -> u32 {
        self.device.bulk_in(&self.table[..self.count], medium, buffer)
    }

    /// The packet goes where the compiler cannot see it.
    pub fn show(&mut self, medium: &[u8]) -> u32 {
        let Seen { number, packet, count } = self.device.show(&self.table[..self.count], medium, &[]);
        // One by one: a pair would be read at once, just after it was written in two halves, which the processor waits for.
        black_box(packet);
        black_box(count);
        number
    }

    fn set_switch(&mut self, position: u8, unit: u8) -> u32 {
        self.device.set_switch(&mut self.table[..self.count], position, unit)
    }
}

/// Plays the input on each device; a refusal or stall would be measured for nothing, so the numbers are summed:
/// each answer is 0 or 1.
pub fn play<S: Side>(seats: &mut [Seat<S>], input: &Input, medium: &mut [u8], buffer: &mut [u8]) -> u32 {
    let mut sum = 0;
    match black_box(input) {
        Input::Control(setup) => seats.iter_mut().for_each(|seat| sum += seat.control(setup, buffer)),
        Input::Wrapper(packet) => seats.iter_mut().for_each(|seat| sum += seat.bulk_out(medium, packet)),
        Input::Data(packets) => seats.iter_mut().for_each(|seat| {
            for _ in 0..*packets {
                sum += seat.bulk_out(medium, &[0x5A; PACKET]);
            }
        }),
        Input::Ask => seats.iter_mut().for_each(|seat| sum += seat.bulk_in(medium, buffer)),
        Input::Show => seats.iter_mut().for_each(|seat| sum += seat.show(medium)),
        Input::Switch(position, unit) => {
            seats.iter_mut().for_each(|seat| sum += seat.set_switch(*position, *unit))
        }
    }
    sum
}
