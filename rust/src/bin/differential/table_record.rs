//! What a run has met of damaged and invented tables (document 02, A7): each rule of number 10 broken alone, in each unit;
//! and what a making overwrites.

use crate::event::{Event, KINDS};
use crate::own::{LIMIT, MOST};
use crate::page_record::fits;
use crate::pair::Played;
use crate::state::State;
use crate::table::Table;
use crate::units::{column, COUNTS};
use ordinary::record::Record;
use ordinary::unit::Unit;

/// A name, and the table without its one fault; `None` where the table is not meant.
type Count = (&'static str, fn(&[Unit]) -> Option<Vec<Unit>>);
/// A name, and whether a unit that should begin at a block breaks the rule.
type Fault = (&'static str, fn(&Unit, u32) -> bool);
const UNIT_COUNT: usize = MOST as usize;

const COUNT: [Count; 4] = [
    ("no unit, 10", |units| units.is_empty().then(|| vec![Unit::new(0, LIMIT)])),
    ("five units, 10", |units| (units.len() == 5).then(|| units[..4].to_vec())),
    ("six units or more, 10", |units| (units.len() > 5).then(|| units[..4].to_vec())),
    ("parts from another block on, 10", |units| {
        let by = units.first()?.first;
        let moved = |unit: &Unit| Unit { first: unit.first.wrapping_sub(by), ..*unit };
        (by > 0 && units.len() > 1).then(|| units.iter().map(moved).collect())
    }),
];
/// A making looks at these.
const PARTS: [Fault; 7] = [
    ("no block, 10", |unit, _| unit.blocks == 0),
    ("1,048,577 blocks, 10", |unit, _| unit.blocks == LIMIT + 1),
    ("more than that, 10", |unit, _| unit.blocks > LIMIT + 1),
    ("begins a block later, 10", |unit, first| unit.first == first.wrapping_add(1)),
    ("begins a block earlier, 10", |unit, first| unit.first == first.wrapping_sub(1)),
    ("begins at block 0 too, 10", |unit, first| unit.first == 0 && first != 0),
    ("begins far off, 10", |unit, first| unit.first.abs_diff(first) > LIMIT),
];
/// A making overwrites these.
const HELD: [Fault; 7] = [
    ("switch 2, 10", |unit, _| unit.write_switch == 2),
    ("switch over 2, 10", |unit, _| unit.write_switch > 2),
    ("unconfigured, key, 10", |unit, _| unit.sense_key != 0 && unit.sense_asc == 0),
    ("unconfigured, ASC, 10", |unit, _| unit.sense_asc != 0 && unit.sense_key == 0),
    ("unconfigured, ASCQ, 10", |unit, _| unit.sense_ascq != 0 && unit.sense_asc == 0),
    ("unconfigured, number, 10", |unit, _| unit.sense_information != 0 && unit.sense_key == 0),
    ("unconfigured, 05/21/00, 10", |unit, _| unit.sense().is_out_of_range()),
];
/// A name, and whether a table that fits is meant.
type Fit = (&'static str, fn(&[Unit]) -> bool);

const FIT: [Fit; 4] = [
    ("a unit of 1 block, fits", |units| units.iter().any(|unit| unit.blocks == 1)),
    ("a unit of 1,048,576 blocks, fits", |units| units.iter().any(|unit| unit.blocks == LIMIT)),
    ("units of one size, fits", |units| {
        units.len() > 1 && units.iter().all(|unit| unit.blocks == units[0].blocks)
    }),
    ("reserved bytes set, fits", |units| {
        units.iter().any(|unit| unit.reserved0 != 0 || unit.reserved1 != [0; 3])
    }),
];
/// What a unit has that a making overwrites.
const OVERWRITTEN: [Fit; 4] = [
    ("a sense", |units| units.iter().any(|unit| unit.sense_key != 0)),
    ("a number alone", |units| units.iter().any(|unit| unit.sense_information != 0 && unit.sense_key == 0)),
    ("a closed switch", |units| units.iter().any(Unit::closed)),
    ("a switch that there is not", |units| units.iter().any(|unit| unit.switch().is_none())),
];

type Counts<const ROWS: usize> = [[u64; KINDS.len()]; ROWS];

#[derive(Default)]
pub struct TableRecords {
    count: Counts<{ COUNT.len() }>,
    parts: [Counts<{ PARTS.len() }>; UNIT_COUNT],
    /// A making does not look at them.
    held: [Counts<{ HELD.len() }>; UNIT_COUNT],
    fit: Counts<{ FIT.len() }>,
    overwritten: [[u64; COUNTS.len()]; OVERWRITTEN.len()],
}

/// The table with a unit's part mended: a size of one block if it was none of the sizes, and a first block that follows on.
fn mended_part(units: &[Unit], at: usize) -> Vec<Unit> {
    let mut units = units.to_vec();
    units[at].first = begin(&units, at);
    if !(1..=LIMIT).contains(&units[at].blocks) {
        units[at].blocks = 1;
        // The parts behind it followed on from what its size was, or from what it should have been.
        for next in at + 1..units.len() {
            units[next].first = begin(&units, next);
        }
    }
    units
}

/// The table with no sense in a unit, and its switch open.
fn mended_held(units: &[Unit], at: usize) -> Vec<Unit> {
    let mut units = units.to_vec();
    units[at] = Unit::new(units[at].first, units[at].blocks);
    units
}

/// The table as a making sees it, which looks at no record, no sense and no switch.
fn emptied(units: &[Unit]) -> Vec<Unit> {
    units.iter().map(|unit| Unit::new(unit.first, unit.blocks)).collect()
}

/// Where a unit should begin.
fn begin(units: &[Unit], at: usize) -> u32 {
    units[..at].iter().fold(0, |sum, unit| sum.wrapping_add(unit.blocks))
}

impl TableRecords {
    /// Notes an event on a damaged or invented table. One that does not fit counts where only one unit's part, or only its
    /// switch and its sense, are at fault.
    pub fn note(&mut self, before: &State, event: &Event, played: &Played) {
        let (kind, number, units) = (event.kind(), played.answer.number, &before.units[..]);
        let making = matches!(event, Event::Make { .. });
        if number != 10 {
            for ((_, holds), counts) in FIT.iter().zip(&mut self.fit) {
                counts[kind] += u64::from(holds(units));
            }
            if let (true, 1, Some(column)) = (making, number, column(units.len())) {
                for ((_, holds), counts) in OVERWRITTEN.iter().zip(&mut self.overwritten) {
                    counts[column] += u64::from(holds(units));
                }
            }
            return;
        }
        if let Event::Switch { position: 2.., .. } = event {
            return;
        }
        let alone = |mended: &[Unit]| match making {
            true => fits(Record::ZERO, &emptied(mended)),
            false => fits(before.record, mended),
        };
        for ((_, mended), counts) in COUNT.iter().zip(&mut self.count) {
            counts[kind] += u64::from(mended(units).is_some_and(|units| alone(&units)));
        }
        for at in 0..units.len().min(UNIT_COUNT) {
            let first = begin(units, at);
            let [part, held] = [mended_part(units, at), mended_held(units, at)].map(|mended| alone(&mended));
            let parts = PARTS.iter().zip(&mut self.parts[at]).filter(|_| part);
            let held = HELD.iter().zip(&mut self.held[at]).filter(|_| held);
            for ((_, holds), counts) in parts.chain(held) {
                counts[kind] += u64::from(holds(&units[at], first));
            }
        }
    }

    fn tables(&self) -> [Table<'_>; 4] {
        let count = COUNT.iter().zip(&self.count).map(|((name, _), counts)| (name.to_string(), &counts[..]));
        let parts = rows(&PARTS, &self.parts, 0).filter(|(name, _)| !impossible(name));
        let held = rows(&HELD, &self.held, 1);
        let fit = FIT.iter().zip(&self.fit).map(|((name, _), counts)| (name, &counts[..]));
        let overwritten = OVERWRITTEN.iter().zip(self.overwritten.iter().map(|counts| &counts[..]));
        let overwritten = overwritten.map(|((name, _), counts)| (name, counts));
        [
            Table::new("of these, tables by units and parts", KINDS, count.chain(parts)),
            Table::new("of these, tables by switches and senses", &KINDS[1..], held),
            Table::new("of these, tables that fit", KINDS, fit),
            Table::new("of these, makings by what they overwrite", COUNTS, overwritten),
        ]
    }

    pub fn print(&self) {
        self.tables().iter().for_each(Table::print);
    }

    /// What is owed of a run and did not occur.
    pub fn missing(&self) -> Vec<String> {
        self.tables().iter().flat_map(Table::missing).collect()
    }
}

/// The faults of each unit, from the kind of event `from` on.
fn rows<'a, const ROWS: usize>(
    faults: &'a [Fault; ROWS],
    counts: &'a [Counts<ROWS>; UNIT_COUNT],
    from: usize,
) -> impl Iterator<Item = (String, &'a [u64])> {
    counts.iter().enumerate().flat_map(move |(unit, counts)| {
        let row = move |((name, _), counts): (&Fault, &'a [u64; KINDS.len()])| {
            (format!("unit {unit}: {name}"), &counts[from..])
        };
        faults.iter().zip(counts).map(row)
    })
}

/// Unit 0 begins at block 0 as it should.
fn impossible(name: &str) -> bool {
    name == "unit 0: begins at block 0 too, 10"
}
