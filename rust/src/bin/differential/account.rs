//! The accountant beside both devices (document 02, A13): fed a trial's sizes, its events and their answers, and nothing
//! of records and tables. The ledger must be in balance after each event.

use crate::event::{Event, Step};
use crate::own::Own;
use crate::pair::{Pair, Played};
use ordinary::ledger::{self, Ledger};

struct Account {
    sizes: Vec<u32>,
    /// `None` where there is no fresh collector with all that is lent going on as it was made.
    ledger: Option<Ledger>,
}

impl Account {
    /// Books a step; the error tells why the ledger is out of balance.
    fn note(&mut self, step: &Step, played: &Played) -> Result<(), String> {
        let number = played.answer.number;
        if let Event::Make { .. } = step.event {
            let fresh = number == 1 && step.other.is_none();
            self.ledger = fresh.then(|| Ledger::new(&self.sizes));
        } else if step.other.is_some() && moves(&step.event, number) {
            self.ledger = None;
        }
        let (Some(ledger), Some(event)) = (&mut self.ledger, told(&step.event)) else { return Ok(()) };
        ledger.note(event, number, &played.buffer);
        ledger.book().balance().map_err(|fault| format!("ledger out of balance: {fault}"))
    }
}

/// Whether the device goes on by what the event was lent: one table is lent throughout, says the claim. Where nothing
/// changes but the lock, it is as if that event had come with the own table.
fn moves(event: &Event, number: u32) -> bool {
    number == 1 || (number == 0 && event.asks())
}

/// The event without what is lent to it; a making begins an account. The call for the reply is none of the history: it
/// changes nothing and hands nothing out.
fn told(event: &Event) -> Option<ledger::Event<'_>> {
    Some(match event {
        Event::Make { .. } | Event::Reply { .. } => return None,
        Event::BusReset => ledger::Event::BusReset,
        Event::Control { setup, .. } => ledger::Event::Control { setup },
        Event::BulkOut { packet, .. } => ledger::Event::BulkOut { packet },
        Event::BulkIn { .. } => ledger::Event::BulkIn,
        Event::Show { .. } => ledger::Event::Show,
        Event::Switch { position, unit } => ledger::Event::Switch { position: *position, unit: *unit },
    })
}

/// Both devices, with the accountant.
pub struct Audited<'a> {
    pub pair: Pair<'a>,
    account: Account,
}

impl<'a> Audited<'a> {
    pub fn new(pair: Pair<'a>, own: &Own) -> Audited<'a> {
        Audited { pair, account: Account { sizes: own.sizes.clone(), ledger: None } }
    }

    /// Plays a step on both; the error tells the first difference, or that the ledger is out of balance.
    pub fn play(&mut self, step: &Step) -> Result<Played, String> {
        let played = self.pair.play(step)?;
        self.account.note(step, &played)?;
        Ok(played)
    }

    /// Whether the step before was booked.
    pub fn under_account(&self) -> bool {
        self.account.ledger.is_some()
    }
}
