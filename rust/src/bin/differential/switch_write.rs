//! What a run has met of commands with their unit's write switch closed (document 02, A4): Writes that it refuses, those that
//! another check refuses first, those under way, and the commands that it leaves alone.

use crate::block_place::{completes, range};
use crate::control_byte;
use crate::coverage::{accept, unit_of, verdict, COMMANDS, PASSED};
use crate::event::Event;
use crate::pair::Played;
use crate::state::State;
use crate::table::Table;
use ordinary::cases::Case;
use ordinary::device::PACKET;
use ordinary::record::{stage, Record};
use ordinary::scsi::{self, code, Data, Sense};
use ordinary::switch::Switch;
use ordinary::unit::Unit;
use ordinary::wrapper::Cbw;

/// The meetings that a Write would have had with the switch open. Refused, it has no data in any of them.
const MEETINGS: [Case; 8] = [
    Case::HnDn,
    Case::HiOverDn,
    Case::HoOverDn,
    Case::HnDo,
    Case::HiDo,
    Case::HoOverDo,
    Case::HoEqualDo,
    Case::HoUnderDo,
];
/// The sense that such a Write found: none of it is left.
const FOUND: [&str; 4] = ["none", "a range failure", "07/27/00", "another"];
/// The checks before the switch.
const FIRST: [&str; 4] = ["byte 1", "control byte", "range", "range, count 0"];
const ANNOUNCED: [&str; 3] = ["none", "in", "out"];
/// The switch was closed after the Write's wrapper.
const UNDER_WAY: [&str; 4] = ["packet held", "block stored", "last block stored", "another length"];

#[derive(Default)]
pub struct SwitchWrites {
    refused: [u64; MEETINGS.len()],
    found: [u64; FOUND.len()],
    /// By check and what is announced.
    first: [[u64; ANNOUNCED.len()]; FIRST.len()],
    under_way: [u64; UNDER_WAY.len()],
    /// By command of the table.
    passed: [[u64; 1]; COMMANDS.len()],
}

impl SwitchWrites {
    /// Notes an event that was played on a device that was in the state of `before`.
    pub fn note(&mut self, before: &State, event: &Event, played: &Played) {
        let (Event::BulkOut { packet, .. }, 1) = (event, played.answer.number) else { return };
        match before.stage {
            stage::READY => {
                let cbw = accept(before, packet).filter(|cbw| unit_of(before, cbw).closed());
                cbw.iter().for_each(|cbw| self.note_wrapper(before, cbw));
            }
            stage::DATA_OUT if before.own_unit().is_some_and(Unit::closed) => self.note_data(before, packet),
            _ => {}
        }
    }

    fn note_wrapper(&mut self, before: &State, cbw: &Cbw) {
        match cbw.block[0] {
            code::WRITE => self.note_write(unit_of(before, cbw), cbw),
            _ => self.note_other(before, cbw),
        }
    }

    fn note_write(&mut self, unit: &Unit, cbw: &Cbw) {
        let announced = match (cbw.announced, cbw.data_in) {
            (0, _) => 0,
            (_, true) => 1,
            (_, false) => 2,
        };
        match scsi::decide(cbw.block, unit.sense(), unit.blocks, Switch::Open) {
            Ok(data) => self.note_refused(unit.sense(), cbw, &data),
            Err(sense) => self.first[first(cbw.block, sense)][announced] += 1,
        }
    }

    fn note_refused(&mut self, found: Sense, cbw: &Cbw, data: &Data) {
        let found = match found {
            Sense::NONE => 0,
            _ if found.is_out_of_range() => 1,
            Sense::WRITE_PROTECTED => 2,
            _ => 3,
        };
        self.found[found] += 1;
        let case = Case::of(cbw, data);
        for (meeting, count) in MEETINGS.iter().zip(&mut self.refused) {
            *count += u64::from(*meeting == case);
        }
    }

    fn note_other(&mut self, before: &State, cbw: &Cbw) {
        let known = COMMANDS.iter().position(|(code, _)| *code == cbw.block[0]);
        if let (Some(index), (_, PASSED)) = (known, verdict(before, cbw)) {
            self.passed[index][0] += 1;
        }
    }

    fn note_data(&mut self, before: &Record, packet: &[u8]) {
        let met = match packet.len() {
            PACKET if completes(before, packet) => 1 + usize::from(before.left == 1),
            PACKET => 0,
            _ => 3,
        };
        self.under_way[met] += 1;
    }

    fn tables(&self) -> [Table<'_>; 5] {
        let first = FIRST.iter().zip(self.first.iter().map(|counts| &counts[..]));
        let others = COMMANDS.iter().zip(&self.passed).filter(|((code, _), _)| *code != code::WRITE);
        let others = others.map(|((code, name), counts)| (format!("{code:02X} {name}"), &counts[..]));
        [
            Table::new(
                "Writes refused for the switch alone, by the meeting with it open",
                MEETINGS.map(|case| format!("{case:?}")),
                [("2A Write", &self.refused[..])],
            ),
            Table::new("of these, by the sense found", FOUND, [("2A Write", &self.found[..])]),
            Table::new("Writes with the switch closed, refused by a check before it", ANNOUNCED, first),
            Table::new(
                "Writes under way with the switch closed",
                UNDER_WAY,
                [("2A Write", &self.under_way[..])],
            ),
            Table::new("other commands with the switch closed", ["passed"], others),
        ]
    }

    pub fn print(&self) {
        self.tables().iter().for_each(Table::print);
    }

    /// What is owed of a run and did not occur.
    pub fn missing(&self) -> Vec<String> {
        self.tables().iter().flat_map(Table::missing).collect()
    }
}

/// The check that refused a Write, as a place in `FIRST`.
fn first(block: &[u8; 16], sense: Sense) -> usize {
    match range(block) {
        _ if !sense.is_out_of_range() => usize::from(control_byte::cleared(block) != *block),
        (_, 0) => 3,
        _ => 2,
    }
}
