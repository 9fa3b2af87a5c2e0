//! A trial: a table of units, a medium, a making, and the events after it. It can be played again and shrunk.

use crate::account::Audited;
use crate::compare::show_table;
use crate::event::{Event, Lent, Step};
use crate::host;
use crate::large_media::LargeMedia;
use crate::own::{self, Own, SMALL};
use crate::pair::Pair;
use crate::random::Random;
use crate::state::State;
use crate::tables;
use ordinary::record::Record;

pub struct Trial {
    seed: u64,
    pub own: Own,
    /// Whether each event is lent the own table, so that all of them are under account.
    one_table: bool,
    pub length: usize,
    pub events: Vec<Step>,
    /// A block that is compared after each event although nothing asks for it.
    stray: Option<usize>,
}

impl Trial {
    /// Mostly the smallest media. Those of up to `SMALL` blocks are compared whole after each event: of the longest
    /// of these the trials are short.
    pub fn new(random: &mut Random) -> Trial {
        let (sizes, length) = match random.below(100) {
            0 => (vec![SMALL - if random.one_in(4) { random.below(3967) as u32 } else { 0 }], 150),
            1..=5 => (own::several(random, |random| 1 + random.below(64) as u32), 400),
            6..=9 => (own::large_units(random), 1000),
            _ => (own::several(random, |random| 1 + random.below(8) as u32), 100 + random.below(700)),
        };
        let making = Event::Make { identity: host::identity(random), medium: Lent::Own };
        Trial {
            seed: random.number(),
            own: Own::new(random, sizes),
            one_table: random.one_in(2),
            length: length as usize,
            events: vec![Step::own(making)],
            stray: None,
        }
    }

    /// Adds the next event for a device in this state.
    pub fn go_on(&mut self, random: &mut Random, state: &State) {
        self.events.push(if self.one_table {
            Step::own(host::next(random, state, &self.own))
        } else {
            host::step(random, state, &self.own)
        });
    }

    /// The table is as a collector before left it: any senses and any switches, which the making overwrites.
    fn before(&self) -> State {
        let mut units = self.own.units();
        tables::spoil(&mut Random::new(self.seed), &mut units);
        State { record: Record::ZERO, units }
    }

    /// Both devices before the making, and the accountant. A large medium is made ready in `media`.
    pub fn begin<'a>(&self, media: &'a mut LargeMedia) -> Audited<'a> {
        Audited::new(self.pair(media), &self.own)
    }

    fn pair<'a>(&self, media: &'a mut LargeMedia) -> Pair<'a> {
        if self.own.is_large() {
            media.begin(&self.own, self.seed);
            self.stray.iter().for_each(|block| media.watch(*block));
            Pair::large(self.before(), media)
        } else {
            Pair::small(self.before(), Random::new(self.seed).bytes(self.own.bytes() as u64))
        }
    }

    /// The number of events up to the first difference, and the difference. Each time the memory is new, for after a
    /// difference anything may have been written.
    fn replay(&self, events: &[Step]) -> Option<(usize, String)> {
        let mut media = LargeMedia::default();
        let mut audited = self.begin(&mut media);
        let mut differs = |event| audited.play(event).err();
        events.iter().enumerate().find_map(|(at, event)| differs(event).map(|text| (at + 1, text)))
    }

    /// The difference, after the fewest events that show it are printed. A stray block that the trial's end has shown
    /// is looked at from the start, so that the event that wrote it is found.
    pub fn report(&mut self, stray: Option<usize>) -> String {
        self.stray = stray;
        let difference = self.shrink();
        self.print();
        difference
    }

    /// Leaves out events for as long as a difference remains; gives back the difference that is left.
    fn shrink(&mut self) -> String {
        let Some((mut end, mut difference)) = self.replay(&self.events) else {
            return "it did not occur again when played again".into();
        };
        self.events.truncate(end);
        let mut chunk = self.events.len();
        while chunk > 0 {
            let mut at = 0;
            while at < self.events.len() {
                let mut fewer = self.events.clone();
                fewer.drain(at..fewer.len().min(at + chunk));
                match self.replay(&fewer) {
                    Some(found) => {
                        (end, difference) = found;
                        fewer.truncate(end);
                        self.events = fewer;
                    }
                    None => at += chunk,
                }
            }
            chunk /= 2;
        }
        difference
    }

    fn print(&self) {
        println!("own table: {}", show_table(&self.before().units));
        for (at, event) in self.events.iter().enumerate() {
            println!("{:>4} {event}", at + 1);
        }
    }
}
