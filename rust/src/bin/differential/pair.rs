//! The two devices side by side: each event is played on both, and all that it leaves is compared.

use crate::beside::{self, Outcome};
use crate::compare::{compare_bytes, compare_records, compare_tables, same_bytes};
use crate::event::{Buffer, Event, Lent, Step};
use crate::large_media::LargeMedia;
use crate::media::Media;
use crate::random::Random;
use crate::sides::{play_ordinary, play_proved, Loan, Ordinary};
use crate::state::State;
use ordinary::capi::{source, CShown};
use ordinary::device::PACKET;
use ordinary::record::{stage, Record};
use ordinary::unit::Unit;

pub struct Pair<'a> {
    ordinary: Ordinary,
    proved: Record,
    tables: [Vec<Unit>; 2],
    media: Media<'a>,
    buffers: [Vec<u8>; 2],
}

/// What an event left, the same on both sides.
pub struct Played {
    pub answer: CShown,
    /// The bytes that were written to the buffer, or shown.
    pub buffer: Vec<u8>,
    /// The length of the medium that was lent.
    pub medium: usize,
    /// The reply that was lent.
    pub reply: Vec<u8>,
}

impl<'a> Pair<'a> {
    pub fn small(state: State, medium: Vec<u8>) -> Pair<'static> {
        Pair::new(state, Media::small(medium))
    }

    pub fn large(state: State, media: &'a mut LargeMedia) -> Pair<'a> {
        Pair::new(state, Media::Large(media))
    }

    fn new(state: State, media: Media<'a>) -> Pair<'a> {
        let State { record, units } = state;
        let tables = [units.clone(), units];
        Pair { ordinary: Ordinary::new(record), proved: record, tables, media, buffers: [vec![], vec![]] }
    }

    /// Sets both devices to a record and a table, which may be anything.
    pub fn load(&mut self, state: &State) {
        self.ordinary = Ordinary::new(state.record);
        self.proved = state.record;
        self.tables.iter_mut().for_each(|table| table.clone_from(&state.units));
    }

    /// Sets both devices' own medium.
    pub fn restore_medium(&mut self, medium: &[u8]) {
        self.media.lend(Lent::Own).into_iter().for_each(|own| own.copy_from_slice(medium));
    }

    pub fn medium(&self) -> &[u8] {
        self.media.own()
    }

    /// A block that differs although no event has shown it. Small media are compared whole after each event.
    pub fn stray(&self) -> Option<usize> {
        match &self.media {
            Media::Small { .. } => None,
            Media::Large(media) => media.stray(),
        }
    }

    /// The record and the own table.
    pub fn state(&self) -> State {
        State { record: self.ordinary.record(), units: self.tables[0].clone() }
    }

    /// What a step finds: its own table or the other one.
    pub fn state_for(&self, step: &Step) -> State {
        let units = step.other.as_ref().unwrap_or(&self.tables[0]);
        State { record: self.ordinary.record(), units: units.clone() }
    }

    pub fn decodes(&self) -> bool {
        matches!(self.ordinary, Ordinary::Device(_))
    }

    /// Plays a step on both; the error tells the first difference.
    pub fn play(&mut self, step: &Step) -> Result<Played, String> {
        match &step.other {
            None => self.play_event(&step.event),
            Some(other) => {
                let own = std::mem::replace(&mut self.tables, [other.clone(), other.clone()]);
                let played = self.play_event(&step.event);
                self.tables = own;
                played
            }
        }
    }

    fn play_event(&mut self, event: &Event) -> Result<Played, String> {
        self.fill_buffers(event);
        self.watch_write(event);
        // The proved device's own: an acked event may have left other reserved bytes than the ordinary one's.
        let before = State { record: self.proved, units: self.tables[1].clone() };
        let reply = event.reply(&before.record);
        let copied = self.ask_copies(event);
        let [a, b] = self.media.lend(event.medium());
        let [table_a, table_b] = &mut self.tables;
        let [buffer_a, buffer_b] = &mut self.buffers;
        let (medium, replies) = (a.len(), [reply.clone(), reply]);
        let loan_a = Loan { units: table_a, medium: a, buffer: buffer_a, reply: &replies[0] };
        let loan_b = Loan { units: table_b, medium: b, buffer: buffer_b, reply: &replies[1] };
        let answers =
            [play_ordinary(&mut self.ordinary, event, loan_a), play_proved(&mut self.proved, event, loan_b)];
        if answers[0] != answers[1] {
            return Err(format!("answer: ordinary {:?}, proved {:?}", answers[0], answers[1]));
        }
        let answer = answers[0];
        let given = [given(&answer, a, buffer_a, &replies[0])?, given(&answer, b, buffer_b, &replies[1])?];
        compare_bytes("packet", &given[0], &given[1])?;
        compare_bytes("buffer", buffer_a, buffer_b)?;
        compare_bytes("lent reply", &replies[0], &replies[1])?;
        compare_tables(table_a, table_b)?;
        self.media.compare(event.medium())?;
        compare_records(&self.ordinary.record(), &self.proved)?;
        if answer.number >= 10 {
            self.compare_kept(event, &before).map_err(|what| format!("refused, but not kept: {what}"))?;
        }
        let [reply, _] = replies;
        let [buffer, _] = given;
        let played = Played { answer, buffer, medium, reply };
        let after = [self.ordinary.record(), self.proved];
        beside::check(event, &before, &played, copied, after, &self.tables[1])?;
        Ok(played)
    }

    /// Copies of both devices, asked by the copying call beside a showing one.
    fn ask_copies(&mut self, event: &Event) -> Option<[Outcome; 2]> {
        let Event::Show { medium, .. } = *event else { return None };
        let ask = Event::BulkIn { medium, buffer: Buffer { length: PACKET, seed: 0 } };
        let (mut ordinary, mut proved) = (self.ordinary.clone(), self.proved);
        let [a, b] = self.media.lend(medium);
        let [table_a, table_b] = &mut self.tables;
        let mut buffers = [[0; PACKET]; 2];
        let [buffer_a, buffer_b] = &mut buffers;
        let loan_a = Loan { units: table_a, medium: a, buffer: buffer_a, reply: &[] };
        let loan_b = Loan { units: table_b, medium: b, buffer: buffer_b, reply: &[] };
        let answers = [play_ordinary(&mut ordinary, &ask, loan_a), play_proved(&mut proved, &ask, loan_b)];
        let outcome = |side: usize, record| {
            let CShown { number, count, .. } = answers[side];
            Outcome { number, bytes: buffers[side][..count].to_vec(), record }
        };
        Some([outcome(0, ordinary.record()), outcome(1, proved)])
    }

    fn fill_buffers(&mut self, event: &Event) {
        for own in &mut self.buffers {
            own.clear();
            if let Some(buffer) = event.buffer() {
                own.resize(buffer.length, 0);
                Random::new(buffer.seed).fill(own);
            }
        }
    }

    /// A refusal changes nothing. A refused making keeps the table byte for byte, and leaves a record of zeros.
    fn compare_kept(&mut self, event: &Event, before: &State) -> Result<(), String> {
        let making = matches!(event, Event::Make { .. });
        let record = if making { Record::ZERO } else { before.record };
        compare_records(&record, &self.proved)?;
        compare_tables(&before.units, &self.tables[1])?;
        if making && !same_bytes(&before.units, &self.tables[1]) {
            return Err("a reserved byte of the table".into());
        }
        let left = self.buffers[1].clone();
        self.fill_buffers(event);
        compare_bytes("buffer", &self.buffers[0], &left)
    }

    /// The block that an event may write is looked at from then on.
    fn watch_write(&mut self, event: &Event) {
        let unit = self.tables[1].get(usize::from(self.proved.unit)).copied();
        if let (Media::Large(media), Event::BulkOut { .. }, stage::DATA_OUT, Some(unit)) =
            (&mut self.media, event, self.proved.stage, unit)
        {
            media.watch_write(unit.first as usize, self.proved.place as usize);
        }
    }
}

/// The bytes that an event gave: those shown, else those written to the buffer.
fn given(answer: &CShown, medium: &[u8], buffer: &[u8], reply: &[u8]) -> Result<Vec<u8>, String> {
    let from = match answer.source {
        source::NONE => buffer,
        source::MEDIUM => medium,
        _ => reply,
    };
    let bytes = answer.start.checked_add(answer.count).and_then(|end| from.get(answer.start..end));
    bytes.map(<[u8]>::to_vec).ok_or_else(|| format!("{answer:?} is not in what was lent"))
}
