//! What a run has met of records in stage 10 (document 02, A2): number 10 follows the pages' codes and sizes.

use crate::event::{Event, KINDS};
use crate::inquiry::{is_page, PAGES};
use crate::pair::Played;
use crate::state::State;
use crate::table::Table;
use ordinary::device::{Answer, Device};
use ordinary::record::{stage, Record};
use ordinary::unit::Unit;

/// A name, and the record without its one fault; `None` where the record is not meant. A record that fits has none.
type Region = (&'static str, fn(&Record) -> Option<Record>);

const FIT: [Region; 4] = [
    ("page 00 to its end, fits", |record| ending(record, 0x00, 0)),
    ("page 80 to its end, fits", |record| ending(record, 0x80, 0)),
    ("page 83 to its end, fits", |record| ending(record, 0x83, 0)),
    ("a page from its middle, fits", |record| (record.place > 0 && record.left > 0).then_some(*record)),
];
const UNFIT: [Region; 8] = [
    ("page 00, a byte past its end, 10", |record| ending(record, 0x00, 1)),
    ("page 80, a byte past its end, 10", |record| ending(record, 0x80, 1)),
    ("page 83, a byte past its end, 10", |record| ending(record, 0x83, 1)),
    ("a page, place past its end, none left, 10", |record| {
        let meant = record.left == 0 && size(record.value).is_some_and(|size| record.place == size + 1);
        meant.then_some(Record { place: 0, ..*record })
    }),
    ("a page, place and bytes due over 32 bits, 10", |record| {
        let meant = record.place.checked_add(record.left).is_none();
        meant.then_some(Record { place: 0, ..*record })
    }),
    ("another page, 10", |record| {
        let meant = u8::try_from(record.value).is_ok_and(|code| !is_page(code));
        meant.then_some(Record { value: 0x83, ..*record })
    }),
    ("a page's code and a bit over it, 10", |record| {
        let code = record.value as u8;
        (record.value > 0xFF && is_page(code)).then_some(Record { value: code.into(), ..*record })
    }),
    ("stage 11, 10", |record| {
        (record.stage == stage::PRODUCT_PAGE + 1).then_some(Record { stage: stage::PRODUCT_PAGE, ..*record })
    }),
];

#[derive(Default)]
pub struct PageRecords {
    /// By region and event. A making finds no record.
    fit: [[u64; KINDS.len()]; FIT.len()],
    unfit: [[u64; KINDS.len()]; UNFIT.len()],
}

fn size(value: u32) -> Option<u32> {
    PAGES.iter().find(|(code, _)| u32::from(*code) == value).map(|(_, size)| u32::from(*size))
}

/// A page's record whose bytes still due end so many bytes past the page.
fn ending(record: &Record, value: u32, past: u32) -> Option<Record> {
    let end = record.place.checked_add(record.left)?;
    let meant = record.value == value && record.left > 0 && Some(end) == size(value).map(|size| size + past);
    meant.then(|| Record { left: record.left - past, ..*record })
}

/// Whether a record is not refused with 10 where this table is lent.
pub fn fits(record: Record, units: &[Unit]) -> bool {
    let device = Device::from_record(&record);
    device.is_some_and(|mut device| device.bus_reset(&mut units.to_vec()) == Answer::Ack)
}

impl PageRecords {
    /// Notes an event on a damaged or invented record. An ask on a record that fits counts where it sent the page. A
    /// record that does not fit counts where it has one fault only.
    pub fn note(&mut self, before: &State, event: &Event, played: &Played) {
        if before.stage < stage::PRODUCT_PAGE {
            return;
        }
        let (kind, number) = (event.kind(), played.answer.number);
        let asked = event.asks();
        if number == 10 {
            for ((_, mended), counts) in UNFIT.iter().zip(&mut self.unfit) {
                counts[kind] += u64::from(mended(before).is_some_and(|record| fits(record, &before.units)));
            }
        } else if number == 0 || !asked {
            for ((_, meant), counts) in FIT.iter().zip(&mut self.fit) {
                counts[kind] += u64::from(meant(before).is_some());
            }
        }
    }

    fn table(&self) -> Table<'_> {
        let fit = FIT.iter().zip(&self.fit);
        let unfit = UNFIT.iter().zip(&self.unfit);
        let rows = fit.chain(unfit).map(|((name, _), counts)| (name, &counts[1..]));
        Table::new("of these, records of product pages", &KINDS[1..], rows)
    }

    pub fn print(&self) {
        self.table().print();
    }

    /// What is owed of a run and did not occur.
    pub fn missing(&self) -> Vec<String> {
        self.table().missing()
    }
}
