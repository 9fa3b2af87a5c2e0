//! What a run has met of Writes and Reads by their unit (document 02, A7): under way, cut and dropped; and Writes beside
//! another unit's closed switch.

use crate::block_place::completes;
use crate::coverage::{accept, unit_of, verdict, FAILED, PASSED};
use crate::event::Event;
use crate::pair::Played;
use crate::sense_drop::CAUSES;
use crate::state::State;
use crate::table::Table;
use crate::units::{names, row, FIRST_OF_SEVERAL, UNITS};
use ordinary::device::PACKET;
use ordinary::record::stage;
use ordinary::scsi::code;
use ordinary::unit::Unit;
use ordinary::wrapper::Cbw;

const UNDER_WAY: [&str; 6] = [
    "packet held",
    "block stored",
    "last block stored",
    "another length",
    "dropped with a part",
    "packet read",
];
/// With a count over 0, so that there is data.
const BESIDE: [&str; 3] = ["passed, another closed", "passed, all others closed", "refused, it alone closed"];

#[derive(Default)]
pub struct UnitWrites {
    under_way: [[u64; UNDER_WAY.len()]; UNITS.len()],
    beside: [[u64; BESIDE.len()]; UNITS.len()],
}

impl UnitWrites {
    /// Notes an event that was played on a device that was in the state of `before`.
    pub fn note(&mut self, before: &State, event: &Event, played: &Played) {
        let (Some(row), number) = (row(before.units.len(), before.unit), played.answer.number) else {
            return;
        };
        let dropped = CAUSES.iter().any(|(_, is)| number == 1 && is(event));
        match (event, number, before.stage) {
            (Event::BulkOut { packet, .. }, 1, stage::READY) => {
                accept(before, packet).iter().for_each(|cbw| self.note_wrapper(before, cbw));
            }
            (Event::BulkOut { packet, .. }, 1, stage::DATA_OUT) => {
                let met = match packet.len() {
                    PACKET if completes(before, packet) => 1 + usize::from(before.left == 1),
                    PACKET => 0,
                    _ => 3,
                };
                self.under_way[row][met] += 1;
            }
            (_, _, stage::DATA_OUT) if dropped && before.value > 0 => self.under_way[row][4] += 1,
            (event, 0, stage::DATA_IN) if event.asks() => self.under_way[row][5] += 1,
            _ => {}
        }
    }

    fn note_wrapper(&mut self, before: &State, cbw: &Cbw) {
        let count = u16::from_be_bytes([cbw.block[7], cbw.block[8]]);
        let (Some(row), true) = (row(before.units.len(), cbw.unit), cbw.block[0] == code::WRITE && count > 0)
        else {
            return;
        };
        let own = unit_of(before, cbw).closed();
        let closed = before.units.iter().filter(|unit| Unit::closed(unit)).count();
        let met = match verdict(before, cbw).1 {
            PASSED => [closed > 0, closed + 1 == before.units.len(), false],
            FAILED => [false, false, own && closed == 1],
            _ => return,
        };
        for (met, count) in met.iter().zip(&mut self.beside[row]) {
            *count += u64::from(*met);
        }
    }

    fn tables(&self) -> [Table<'_>; 2] {
        let names = names();
        let under_way = names.iter().zip(self.under_way.iter().map(|counts| &counts[..]));
        let beside = names.iter().zip(self.beside.iter().map(|counts| &counts[..])).skip(FIRST_OF_SEVERAL);
        [
            Table::new("Writes and Reads under way, by unit", UNDER_WAY, under_way),
            Table::new("Writes and the units' switches", BESIDE, beside),
        ]
    }

    pub fn print(&self) {
        self.tables().iter().for_each(Table::print);
    }

    /// What is owed of a run and did not occur.
    pub fn missing(&self) -> Vec<String> {
        self.tables().iter().flat_map(Table::missing).collect()
    }
}
