//! The differential test: random events are played on the ordinary and on the proved device, and after each event
//! the answer, the whole buffer, the whole medium, the whole record and the whole table must be the same. Of a medium of more than 4,096
//! blocks the blocks in use must be the same after each event, and all at the end of its trial. A showing call must show
//! the same packet at the same place, and do as the copying call on a copy of the device. An accountant who sees
//! the events and answers alone keeps the ledger, which must be in balance after each event.
//!
//! `cargo run --release --bin differential -- [--seed N] [--events N] [--seconds N]`

mod account;
mod allocation_length;
mod ask;
mod beside;
mod block_place;
mod commands;
mod compare;
mod control_byte;
mod coverage;
mod damage;
mod event;
mod host;
mod inquiry;
mod invent;
mod large_media;
mod ledger_drop;
mod ledger_show;
mod ledger_status;
mod lent_reply;
mod media;
mod medium_size;
mod own;
mod page_field;
mod page_record;
mod pair;
mod product_page;
mod random;
mod refused_block;
mod requests;
mod sense_drop;
mod sense_history;
mod sense_record;
mod show_call;
mod show_record;
mod sides;
mod state;
mod switch;
mod switch_drop;
mod switch_event;
mod switch_record;
mod switch_reply;
mod switch_write;
mod table;
mod table_record;
mod tables;
mod trial;
mod unit_command;
mod unit_medium;
mod unit_record;
mod unit_sense;
mod unit_switch;
mod unit_write;
mod units;

use coverage::Coverage;
use damage::Damage;
use large_media::LargeMedia;
use random::Random;
use std::process::ExitCode;
use std::time::{Duration, Instant, SystemTime, UNIX_EPOCH};
use trial::Trial;

/// Reached records are damaged with media of at most so many blocks.
const DAMAGED: u32 = 24;

struct Options {
    seed: u64,
    events: u64,
    seconds: u64,
}

impl Options {
    fn read() -> Result<Options, String> {
        let clock = SystemTime::now().duration_since(UNIX_EPOCH).map_or(0, |since| since.as_nanos() as u64);
        let mut options = Options { seed: clock, events: 1_000_000, seconds: 120 };
        let mut words = std::env::args().skip(1);
        while let Some(word) = words.next() {
            let number = words.next().and_then(|text| text.parse().ok());
            let number = number.ok_or_else(|| format!("{word} needs a number"))?;
            match word.as_str() {
                "--seed" => options.seed = number,
                "--events" => options.events = number,
                "--seconds" => options.seconds = number,
                _ => return Err(format!("{word} is not --seed, --events or --seconds")),
            }
        }
        Ok(options)
    }
}

#[derive(Default)]
struct Run {
    events: u64,
    coverage: Coverage,
    damage: Damage,
    large: LargeMedia,
}

impl Run {
    /// Plays one trial; the error tells a difference.
    fn trial(&mut self, random: &mut Random) -> Result<(), String> {
        let mut trial = Trial::new(random);
        let mut audited = trial.begin(&mut self.large);
        loop {
            let step = &trial.events[trial.events.len() - 1];
            let before = audited.pair.state_for(step);
            let Ok(played) = audited.play(step) else {
                return Err(trial.report(None));
            };
            if step.other.is_some() {
                self.coverage.note_other(&step.event, &played);
            } else {
                self.coverage.note(&before, &step.event, &played);
            }
            if audited.under_account() {
                self.coverage.note_account(&before, &step.event, &played);
            }
            self.events += 1;
            let state = audited.pair.state();
            if trial.own.blocks() <= DAMAGED && self.damage.wants(&state, self.events) {
                self.damage.small(random, &state, &trial.own, audited.pair.medium())?;
            }
            if trial.events.len() > trial.length {
                break;
            }
            trial.go_on(random, &state);
        }
        if let Some(stray) = audited.pair.stray() {
            return Err(trial.report(Some(stray)));
        }
        if trial.own.is_large() && Damage::wants_large(random, self.events) {
            self.damage.large(random, &trial.own, &mut audited.pair)?;
        }
        Ok(())
    }

    /// Plays trials until there were enough events.
    fn all(&mut self, options: &Options) -> Result<(), String> {
        let started = Instant::now();
        let mut random = Random::new(options.seed);
        while self.events < options.events {
            if started.elapsed() > Duration::from_secs(options.seconds) {
                return Err(format!("only {} events in {} seconds", thousands(self.events), options.seconds));
            }
            self.trial(&mut random).map_err(|difference| format!("DIFFERENCE: {difference}"))?;
        }
        self.coverage.print();
        let damage = &self.damage;
        println!("\ndamaged and invented records and tables");
        println!("  {:<44}{:>9}", "records and tables with every byte changed", damage.records);
        println!("  {:<44}{:>9}", "events on records not decoding", damage.undecoded);
        println!("  {:<44}{:>9}", "events on records or tables not fitting", damage.unfit);
        println!("  {:<44}{:>9}", "events on records and tables that fit", damage.fit);
        damage.tables.print();
        damage.units.print();
        damage.pages.print();
        damage.senses.print();
        damage.switches.print();
        damage.shows.print();
        println!("\ntime: {:.1} s", started.elapsed().as_secs_f64());
        let mut missing = self.coverage.missing();
        missing.extend(self.damage.tables.missing());
        missing.extend(self.damage.units.missing());
        missing.extend(self.damage.pages.missing());
        missing.extend(self.damage.senses.missing());
        missing.extend(self.damage.switches.missing());
        missing.extend(self.damage.shows.missing());
        if missing.is_empty() {
            Ok(())
        } else {
            Err(format!("not met: {}", missing.join(", ")))
        }
    }
}

fn thousands(number: u64) -> String {
    let digits = number.to_string();
    let mut text = String::new();
    for (at, digit) in digits.chars().enumerate() {
        if at > 0 && (digits.len() - at).is_multiple_of(3) {
            text.push(',');
        }
        text.push(digit);
    }
    text
}

fn main() -> ExitCode {
    let options = match Options::read() {
        Ok(options) => options,
        Err(message) => {
            eprintln!("differential: {message}");
            return ExitCode::from(2);
        }
    };
    println!("seed {}", options.seed);
    let mut run = Run::default();
    let result = run.all(&options);
    let (events, damaged) = (thousands(run.events), thousands(run.damage.events));
    match result {
        Ok(()) => {
            println!("ledger: {} events under account, in balance", thousands(run.coverage.accounted));
            println!("and {damaged} events on damaged and invented records and tables");
            println!("differential: {events} events, no difference (seed {})", options.seed);
            ExitCode::SUCCESS
        }
        Err(message) => {
            println!("{message}");
            println!("differential: FAILED after {events} events (seed {})", options.seed);
            ExitCode::FAILURE
        }
    }
}
