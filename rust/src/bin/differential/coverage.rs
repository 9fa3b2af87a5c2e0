//! What a run has met, its table, and what is owed of every run.

use crate::allocation_length::AllocationLengths;
use crate::block_place::BlockPlaces;
use crate::control_byte::{self, ControlBytes};
use crate::event::{Event, KINDS};
use crate::ledger_drop::LedgerDrops;
use crate::ledger_show::LedgerShows;
use crate::ledger_status::LedgerStatuses;
use crate::medium_size::MediumSizes;
use crate::page_field::PageFields;
use crate::pair::Played;
use crate::product_page::ProductPages;
use crate::refused_block::RefusedBlocks;
use crate::sense_drop::SenseDrops;
use crate::sense_history::SenseHistory;
use crate::show_call::ShowCalls;
use crate::state::State;
use crate::switch_drop::SwitchDrops;
use crate::switch_event::SwitchEvents;
use crate::switch_reply::SwitchReplies;
use crate::switch_write::SwitchWrites;
use crate::unit_command::UnitCommands;
use crate::unit_medium::UnitMedia;
use crate::unit_sense::UnitSenses;
use crate::unit_switch::UnitSwitches;
use crate::unit_write::UnitWrites;
use ordinary::cases::Case;
use ordinary::record::stage;
use ordinary::scsi::{self, code, Data, Sense};
use ordinary::unit::Unit;
use ordinary::wrapper::Cbw;

const NUMBERS: [usize; 12] = [0, 1, 2, 3, 4, 10, 11, 12, 13, 14, 15, 18];
/// The answers that each kind can give: all are owed.
const OWED: [&[usize]; KINDS.len()] = [
    &[1, 10, 11, 15],
    &[1, 10],
    &[0, 1, 3, 10, 12, 14],
    &[1, 2, 3, 4, 10, 11, 13],
    &[0, 2, 3, 4, 10, 11, 12],
    &[1, 10, 18],
    &[0, 2, 3, 4, 10, 11],
    &[0, 10, 12],
];
pub const COMMANDS: [(u8, &str); 9] = [
    (code::TEST_UNIT_READY, "Test Unit Ready"),
    (code::REQUEST_SENSE, "Request Sense"),
    (code::INQUIRY, "Inquiry"),
    (code::MODE_SENSE, "Mode Sense"),
    (code::PREVENT_ALLOW, "Prevent/Allow"),
    (code::READ_CAPACITY, "Read Capacity"),
    (code::READ, "Read"),
    (code::WRITE, "Write"),
    (code::VERIFY, "Verify"),
];
const STATUSES: [&str; 3] = ["passed", "failed", "phase error"];
/// The verdicts at the wrapper, as places in `STATUSES`.
pub const PASSED: usize = 0;
pub const FAILED: usize = 1;
pub const PHASE_ERROR: usize = 2;

#[derive(Default)]
pub struct Coverage {
    answers: [[u64; 19]; KINDS.len()],
    /// By command of the table, the last for any other; passed, failed, phase error found at the wrapper.
    commands: [[u64; 3]; COMMANDS.len() + 1],
    allocation_lengths: AllocationLengths,
    control_bytes: ControlBytes,
    page_fields: PageFields,
    product_pages: ProductPages,
    medium_sizes: MediumSizes,
    block_places: BlockPlaces,
    refused_blocks: RefusedBlocks,
    sense_drops: SenseDrops,
    sense_history: SenseHistory,
    switch_events: SwitchEvents,
    switch_writes: SwitchWrites,
    switch_replies: SwitchReplies,
    switch_drops: SwitchDrops,
    unit_commands: UnitCommands,
    unit_senses: UnitSenses,
    unit_writes: UnitWrites,
    unit_switches: UnitSwitches,
    unit_media: UnitMedia,
    show_calls: ShowCalls,
    /// The events under account.
    pub accounted: u64,
    ledger_drops: LedgerDrops,
    ledger_statuses: LedgerStatuses,
    ledger_shows: LedgerShows,
    cases: [u64; 14],
    statuses: [u64; 3],
}

impl Coverage {
    /// Notes an event that was lent another table than the trial's own: nothing else is told of it here.
    pub fn note_other(&mut self, event: &Event, played: &Played) {
        self.answers[event.kind()][played.answer.number as usize] += 1;
        self.sense_history.forget();
        self.unit_senses.forget();
    }

    /// Notes an event that was played on a device that was in the state of `before`.
    pub fn note(&mut self, before: &State, event: &Event, played: &Played) {
        let number = played.answer.number as usize;
        self.answers[event.kind()][number] += 1;
        self.medium_sizes.note(before, event, played);
        self.block_places.note(before, event, played);
        self.sense_drops.note(before, event, played);
        self.sense_history.note(before, event, played);
        self.switch_events.note(before, event, played);
        self.switch_writes.note(before, event, played);
        self.switch_replies.note(before, event, played);
        self.switch_drops.note(before, event, played);
        self.unit_commands.note(before, event, played);
        self.unit_senses.note(before, event, played);
        self.unit_writes.note(before, event, played);
        self.unit_switches.note(before, event, played);
        self.unit_media.note(before, event, played);
        self.show_calls.note(before, event, played);
        match event {
            Event::BulkOut { packet, .. } if number == 1 && before.stage == stage::READY => {
                self.note_wrapper(before, packet);
            }
            Event::BulkIn { .. } if number == 0 && before.status_due() => {
                self.statuses[usize::from(played.buffer[12])] += 1;
            }
            event if event.asks() && number == 0 && before.stage == stage::PRODUCT_PAGE => {
                self.product_pages.note_sent(before);
            }
            _ => {}
        }
    }

    /// Notes an event that was booked.
    pub fn note_account(&mut self, before: &State, event: &Event, played: &Played) {
        self.accounted += 1;
        self.ledger_drops.note(before, event, played);
        self.ledger_statuses.note(before, event, played);
        self.ledger_shows.note(before, event, played);
    }

    fn note_wrapper(&mut self, before: &State, packet: &[u8]) {
        let Some(cbw) = accept(before, packet) else { return };
        let (case, verdict) = verdict(before, &cbw);
        let known = COMMANDS.iter().position(|(code, _)| *code == cbw.block[0]);
        self.commands[known.unwrap_or(COMMANDS.len())][verdict] += 1;
        self.cases[case as usize] += 1;
        self.refused_blocks.note(before, &cbw, verdict);
        if cbw.block[0] == code::INQUIRY {
            self.page_fields.note(cbw.block, verdict);
            self.product_pages.note(cbw.block, case, verdict);
        }
        if verdict == PASSED {
            self.allocation_lengths.note_passed(cbw.block);
        }
        if let Some(index) = known {
            self.note_control_byte(before, &cbw, index, verdict);
        }
    }

    fn note_control_byte(&mut self, before: &State, cbw: &Cbw, index: usize, outcome: usize) {
        let cleared = control_byte::cleared(cbw.block);
        let (_, without) = verdict(before, &Cbw { block: &cleared, ..*cbw });
        match (outcome, without) {
            (FAILED, PASSED) => self.control_bytes.note_refused(index, cbw.block),
            (PASSED, _) => self.control_bytes.note_passed(index, cbw.block),
            _ => {}
        }
    }

    pub fn print(&self) {
        println!("\nevents by answer");
        let header: String = NUMBERS.iter().map(|number| format!("{number:>9}")).collect();
        println!("  {:<18}{header}", "");
        for (kind, counts) in KINDS.iter().zip(&self.answers) {
            let row: String = NUMBERS.iter().map(|number| format!("{:>9}", counts[*number])).collect();
            println!("  {kind:<18}{row}");
        }
        println!("\naccepted wrappers by command and verdict at the wrapper");
        println!("  {:<21}{:>9}{:>9}{:>13}", "", STATUSES[0], STATUSES[1], STATUSES[2]);
        for ((operation, name), [passed, failed, phase]) in COMMANDS.iter().zip(&self.commands) {
            println!("  {operation:02X} {name:<18}{passed:>9}{failed:>9}{phase:>13}");
        }
        println!("  {:<30}{:>9}", "any other code", self.commands[COMMANDS.len()][FAILED]);
        self.allocation_lengths.print();
        self.control_bytes.print();
        self.page_fields.print();
        self.product_pages.print();
        self.medium_sizes.print();
        self.block_places.print();
        self.refused_blocks.print();
        self.sense_drops.print();
        self.sense_history.print();
        self.switch_events.print();
        self.switch_writes.print();
        self.switch_replies.print();
        self.switch_drops.print();
        self.unit_commands.print();
        self.unit_senses.print();
        self.unit_writes.print();
        self.unit_switches.print();
        self.unit_media.print();
        self.show_calls.print();
        self.ledger_drops.print();
        self.ledger_statuses.print();
        self.ledger_shows.print();
        println!("\nthe thirteen meetings of host and device");
        for case in Case::ALL {
            println!("  {:>2} {:<18}{:>9}", case as usize, format!("{case:?}"), self.cases[case as usize]);
        }
        println!("\nstatuses handed out");
        for (name, count) in STATUSES.iter().zip(&self.statuses) {
            println!("  {name:<21}{count:>9}");
        }
    }

    /// What is owed of a run and did not occur.
    pub fn missing(&self) -> Vec<String> {
        let mut missing = vec![];
        for ((kind, numbers), counts) in KINDS.iter().zip(OWED).zip(&self.answers) {
            let absent = numbers.iter().filter(|number| counts[**number] == 0);
            missing.extend(absent.map(|number| format!("{kind} answered {number}")));
        }
        let absent = Case::ALL.iter().filter(|case| self.cases[**case as usize] == 0);
        missing.extend(absent.map(|case| format!("case {case:?}")));
        for ((operation, name), counts) in COMMANDS.iter().zip(&self.commands) {
            if counts[PASSED] == 0 {
                missing.push(format!("{operation:02X} {name} passed"));
            }
        }
        for (name, count) in STATUSES.iter().zip(&self.statuses) {
            if *count == 0 {
                missing.push(format!("status {name}"));
            }
        }
        missing.extend(self.allocation_lengths.missing());
        missing.extend(self.control_bytes.missing());
        missing.extend(self.page_fields.missing());
        missing.extend(self.product_pages.missing());
        missing.extend(self.medium_sizes.missing());
        missing.extend(self.block_places.missing());
        missing.extend(self.refused_blocks.missing());
        missing.extend(self.sense_drops.missing());
        missing.extend(self.sense_history.missing());
        missing.extend(self.switch_events.missing());
        missing.extend(self.switch_writes.missing());
        missing.extend(self.switch_replies.missing());
        missing.extend(self.switch_drops.missing());
        missing.extend(self.unit_commands.missing());
        missing.extend(self.unit_senses.missing());
        missing.extend(self.unit_writes.missing());
        missing.extend(self.unit_switches.missing());
        missing.extend(self.unit_media.missing());
        missing.extend(self.show_calls.missing());
        missing.extend(self.ledger_drops.missing());
        missing.extend(self.ledger_statuses.missing());
        missing.extend(self.ledger_shows.missing());
        missing
    }
}

/// A wrapper that a device with the table of `before` accepts.
pub fn accept<'a>(before: &State, packet: &'a [u8]) -> Option<Cbw<'a>> {
    Cbw::accept(packet, before.units.len())
}

/// The unit of an accepted wrapper.
pub fn unit_of<'a>(before: &'a State, cbw: &Cbw) -> &'a Unit {
    &before.units[usize::from(cbw.unit)]
}

/// What is decided of an accepted wrapper on a device in the state of `before`.
pub fn decide(before: &State, cbw: &Cbw) -> Result<Data, Sense> {
    let unit = unit_of(before, cbw);
    let switch = unit.switch().expect("the wrapper was answered, so that the table fits");
    scsi::decide(cbw.block, unit.sense(), unit.blocks, switch)
}

/// A wrapper's meeting on a device in the state of `before`, and its verdict.
pub fn verdict(before: &State, cbw: &Cbw) -> (Case, usize) {
    let outcome = decide(before, cbw);
    let case = Case::of(cbw, &outcome.unwrap_or(Data::None));
    let verdict = match outcome {
        _ if case.is_phase_error() => PHASE_ERROR,
        Ok(_) => PASSED,
        Err(_) => FAILED,
    };
    (case, verdict)
}
