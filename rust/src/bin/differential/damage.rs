//! Records and tables that C may hand over but no event leaves: every byte of reached ones changed, and invented ones.

use crate::ask;
use crate::compare::{show, show_table};
use crate::event::{Event, Lent, Step};
use crate::host;
use crate::invent::invent;
use crate::large_media::LONGEST;
use crate::lent_reply::LentReply;
use crate::own::Own;
use crate::page_record::PageRecords;
use crate::pair::Pair;
use crate::random::Random;
use crate::requests;
use crate::sense_record::SenseRecords;
use crate::show_record::{self, ShowRecords};
use crate::state::State;
use crate::switch::{self, CLOSED, OPEN};
use crate::switch_record::SwitchRecords;
use crate::table_record::TableRecords;
use crate::tables;
use crate::unit_record::UnitRecords;
use ordinary::device::BLOCK;
use ordinary::record::{stage, Record, SIZE};
use ordinary::unit;
use std::mem::offset_of;

/// Reached records are taken evenly from the stages, and from unconfigured and locked devices.
const CLASSES: usize = stage::COUNT + 2;
const EVERY: u64 = 30_000;
const INVENTED: u64 = 250;
const CHANGED_TABLES: u64 = 60;
/// Another medium of at most so many blocks is lent with a small one.
const FEW: u64 = 64;
/// The bytes before the part block.
const FIELDS: usize = offset_of!(Record, part);

#[derive(Default)]
pub struct Damage {
    taken: [u64; CLASSES],
    pub records: u64,
    pub events: u64,
    pub undecoded: u64,
    pub unfit: u64,
    pub fit: u64,
    pub tables: TableRecords,
    pub units: UnitRecords,
    pub pages: PageRecords,
    pub senses: SenseRecords,
    pub switches: SwitchRecords,
    pub shows: ShowRecords,
}

impl Damage {
    /// Whether the state of `record` is owed another turn: one in `EVERY` events that were played. The first comes
    /// late, so that what undamaged records show is told with its list of events.
    pub fn wants(&mut self, record: &Record, events: u64) -> bool {
        let class = match (record.configured(), record.locked()) {
            (false, _) => stage::COUNT,
            (_, true) => stage::COUNT + 1,
            _ => usize::from(record.stage),
        };
        let wanted = self.taken[class] < events / EVERY;
        self.taken[class] += u64::from(wanted);
        wanted
    }

    /// Whether a large medium gets a turn after so many events: late too, and not each time.
    pub fn wants_large(random: &mut Random, events: u64) -> bool {
        events >= EVERY && random.one_in(4)
    }

    /// A turn on a small medium: every byte of a reached record and of its table, and invented ones.
    pub fn small(
        &mut self,
        random: &mut Random,
        reached: &State,
        own: &Own,
        medium: &[u8],
    ) -> Result<(), String> {
        self.records += 1;
        let mut pair = Pair::small(reached.clone(), medium.to_vec());
        for at in 0..SIZE + unit::SIZE * reached.units.len() {
            self.change(random, &mut pair, reached, own, at, Some(medium))?;
        }
        for _ in 0..CHANGED_TABLES {
            let state = State { units: tables::changed(random, &reached.units), ..reached.clone() };
            self.seven(random, &mut pair, &state, own, Some(medium))?;
        }
        for _ in 0..INVENTED {
            let state = invent(random, own);
            let mut pair = Pair::small(state.clone(), medium.to_vec());
            self.invented(random, &mut pair, &state, own)?;
        }
        Ok(())
    }

    /// A turn on a large medium, at the end of its trial: every field of the record reached and of its table, and invented
    /// ones. What they write stays, on both sides.
    pub fn large(&mut self, random: &mut Random, own: &Own, pair: &mut Pair) -> Result<(), String> {
        let reached = pair.state();
        for at in (0..FIELDS).chain(SIZE..SIZE + unit::SIZE * reached.units.len()) {
            self.change(random, pair, &reached, own, at, None)?;
        }
        for _ in 0..INVENTED {
            let state = invent(random, own);
            self.invented(random, pair, &state, own)?;
        }
        match pair.stray() {
            None => Ok(()),
            Some(block) => Err(format!("medium, block {block}, after damaged and invented records")),
        }
    }

    /// Changes a byte of a reached record or, behind it, of its table in some ways, then plays each of the seven events on
    /// it. A reserved byte must not be looked at.
    fn change(
        &mut self,
        random: &mut Random,
        pair: &mut Pair,
        reached: &State,
        own: &Own,
        at: usize,
        medium: Option<&[u8]>,
    ) -> Result<(), String> {
        let mut state = reached.clone();
        let old = *byte(&mut state, at);
        for new in [old ^ 1 << random.below(8), old.wrapping_add(1), random.number() as u8] {
            *byte(&mut state, at) = new;
            self.seven(random, pair, &state, own, medium)?;
        }
        Ok(())
    }

    /// Plays each of the seven events on a state.
    fn seven(
        &mut self,
        random: &mut Random,
        pair: &mut Pair,
        state: &State,
        own: &Own,
        medium: Option<&[u8]>,
    ) -> Result<(), String> {
        for event in seven_events(random, state, own) {
            pair.load(state);
            self.play(pair, state, event.clone())?;
            if let (Event::BulkOut { .. }, Some(medium)) = (&event, medium) {
                pair.restore_medium(medium);
            }
        }
        Ok(())
    }

    /// Plays each of the seven events, a making and a short list of events on a state that was made up.
    fn invented(
        &mut self,
        random: &mut Random,
        pair: &mut Pair,
        state: &State,
        own: &Own,
    ) -> Result<(), String> {
        self.seven(random, pair, state, own, None)?;
        pair.load(state);
        self.play(pair, state, Event::Make { identity: host::identity(random), medium: lent(own, state) })?;
        pair.load(state);
        for _ in 0..6 {
            let before = pair.state();
            let event = host::next(random, &before, own);
            self.play(pair, &before, event)?;
        }
        Ok(())
    }

    fn play(&mut self, pair: &mut Pair, before: &State, event: Event) -> Result<(), String> {
        let decodes = pair.decodes();
        let step = Step::own(event);
        let tell = |difference| {
            let (record, table) = (show(before), show_table(&before.units));
            format!("record: {record}\ntable: {table}\nevent: {step}\n{difference}")
        };
        let played = pair.play(&step).map_err(tell)?;
        let event = &step.event;
        self.events += 1;
        self.shows.note(before, event, &played);
        if show_record::lent_other(before, event, &played) {
            return Ok(());
        }
        self.tables.note(before, event, &played);
        match event {
            Event::Make { .. } => return Ok(()),
            // Number 10 whatever the record: it tells nothing of that.
            Event::Switch { position: 2.., .. } => {
                self.switches.note_no_position(before);
                return Ok(());
            }
            _ => {}
        }
        let unfit = played.answer.number == 10;
        self.units.note(before, event, &played);
        self.pages.note(before, event, &played);
        self.senses.note(before, event, &played);
        self.switches.note(before, event, &played);
        self.undecoded += u64::from(!decodes);
        self.unfit += u64::from(decodes && unfit);
        self.fit += u64::from(!unfit);
        Ok(())
    }
}

/// A byte of the record or, behind it, of the table.
fn byte(state: &mut State, at: usize) -> &mut u8 {
    match at.checked_sub(SIZE) {
        None => &mut state.record.as_bytes_mut()[at],
        Some(at) => &mut state.units[at / unit::SIZE].as_bytes_mut()[at % unit::SIZE],
    }
}

/// A medium of the table's size, where there is so much memory: no other check then refuses a table that does not fit.
fn lent(own: &Own, state: &State) -> Lent {
    let most = if own.is_large() { (LONGEST / BLOCK) as u64 } else { FEW };
    match state.blocks() {
        blocks if blocks == own.blocks().into() || blocks > most => Lent::Own,
        blocks => Lent::Other(blocks as usize * BLOCK),
    }
}

fn seven_events(random: &mut Random, state: &State, own: &Own) -> [Event; 7] {
    let (setup, medium) = (requests::known(random), lent(own, state));
    [
        Event::BusReset,
        host::control(random, setup),
        Event::BulkOut { medium, packet: host::packet(random, state, own) },
        Event::BulkIn { medium, buffer: ask::buffer(random) },
        Event::Show { medium, reply: LentReply::some(random) },
        ask::reply(random),
        Event::Switch { position: random.pick(&[OPEN, CLOSED]), unit: switch::unit(random, state) },
    ]
}
