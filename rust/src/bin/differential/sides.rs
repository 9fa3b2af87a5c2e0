//! An event played on the ordinary and on the proved device, each lent what is its own.

use crate::event::Event;
use ordinary::capi::{self, source, CAnswer, CShown};
use ordinary::device::{Answer, Device, Refusal};
use ordinary::record::Record;
use ordinary::show::Shown;
use ordinary::unit::Unit;

/// The ordinary device, or a record that does not decode: every event on it answers 10.
#[derive(Clone)]
pub enum Ordinary {
    Device(Device),
    Undecoded(Record),
}

impl Ordinary {
    pub fn new(record: Record) -> Ordinary {
        Device::from_record(&record).map_or(Ordinary::Undecoded(record), Ordinary::Device)
    }

    pub fn record(&self) -> Record {
        match self {
            Ordinary::Device(device) => device.to_record(),
            Ordinary::Undecoded(record) => *record,
        }
    }
}

/// All that an event may be lent.
pub struct Loan<'a> {
    pub units: &'a mut [Unit],
    pub medium: &'a mut [u8],
    pub buffer: &'a mut [u8],
    pub reply: &'a [u8],
}

pub fn play_ordinary(side: &mut Ordinary, event: &Event, loan: Loan) -> CShown {
    let Loan { units, medium, buffer, reply } = loan;
    let answer = match (event, &mut *side) {
        (Event::Make { identity, .. }, _) => match Device::make(*identity, units, medium) {
            Ok(device) => {
                *side = Ordinary::Device(device);
                Answer::Ack
            }
            Err(refusal) => {
                *side = Ordinary::new(Record::ZERO);
                Answer::Refused(refusal)
            }
        },
        (_, Ordinary::Undecoded(_)) => Answer::Refused(Refusal::Record),
        (Event::BusReset, Ordinary::Device(device)) => device.bus_reset(units),
        (Event::Control { setup, .. }, Ordinary::Device(device)) => device.control(units, setup, buffer),
        (Event::BulkOut { packet, .. }, Ordinary::Device(device)) => device.bulk_out(units, medium, packet),
        (Event::BulkIn { .. }, Ordinary::Device(device)) => device.bulk_in(units, medium, buffer),
        (Event::Show { .. }, Ordinary::Device(device)) => {
            return stands(device.show(units, medium, reply), medium, reply);
        }
        (Event::Reply { .. }, Ordinary::Device(device)) => device.reply(units, buffer),
        (Event::Switch { position, unit }, Ordinary::Device(device)) => {
            device.set_switch(units, *position, *unit)
        }
    };
    answered(CAnswer { number: answer.number(), count: answer.count() as usize })
}

pub fn play_proved(record: &mut Record, event: &Event, loan: Loan) -> CShown {
    let Loan { units, medium, buffer, reply } = loan;
    answered(match event {
        Event::Make { identity, .. } => capi::make(record, *identity, units, medium),
        Event::BusReset => capi::bus_reset(record, units),
        Event::Control { setup, .. } => capi::control(record, units, setup, buffer),
        Event::BulkOut { packet, .. } => capi::bulk_out(record, units, medium, packet),
        Event::BulkIn { .. } => capi::bulk_in(record, units, medium, buffer),
        Event::Show { .. } => return capi::show(record, units, medium, reply),
        Event::Reply { .. } => capi::reply(record, units, buffer),
        Event::Switch { position, unit } => capi::set_switch(record, units, *position, *unit),
    })
}

/// An answer that shows nothing.
fn answered(CAnswer { number, count }: CAnswer) -> CShown {
    CShown { number, source: source::NONE, start: 0, count }
}

/// Where the ordinary device's packet stands. One that is of neither has no source.
fn stands(Shown { answer, packet }: Shown, medium: &[u8], reply: &[u8]) -> CShown {
    let (number, count) = (answer.number(), packet.len());
    let within = |lent: &[u8]| {
        let start = packet.as_ptr().addr().checked_sub(lent.as_ptr().addr())?;
        (start + count <= lent.len() && count > 0).then_some(start)
    };
    match (within(medium), within(reply)) {
        (Some(start), _) => CShown { number, source: source::MEDIUM, start, count },
        (_, Some(start)) => CShown { number, source: source::REPLY, start, count },
        _ => CShown { number, source: source::NONE, start: 0, count },
    }
}
