//! What an event finds: the record, and the table of units that is lent with it.

use ordinary::record::Record;
use ordinary::scsi::Sense;
use ordinary::unit::Unit;
use std::ops::Deref;

/// It is read as its record.
#[derive(Clone)]
pub struct State {
    pub record: Record,
    pub units: Vec<Unit>,
}

impl Deref for State {
    type Target = Record;

    fn deref(&self) -> &Record {
        &self.record
    }
}

impl State {
    /// The unit of the command in hand; `None` where it is beyond the table.
    pub fn own_unit(&self) -> Option<&Unit> {
        self.units.get(usize::from(self.record.unit))
    }

    /// The blocks of all units, whether or not they fit.
    pub fn blocks(&self) -> u64 {
        self.units.iter().map(|unit| u64::from(unit.blocks)).sum()
    }

    /// Whether the switch of any unit is closed.
    pub fn any_closed(&self) -> bool {
        self.units.iter().any(Unit::closed)
    }

    /// Whether any unit holds a sense that is meant.
    pub fn any_sense(&self, meant: fn(&Sense) -> bool) -> bool {
        self.units.iter().any(|unit| meant(&unit.sense()))
    }

    /// How many units hold a sense.
    pub fn senses(&self) -> usize {
        self.units.iter().filter(|unit| !unit.sense().is_zero()).count()
    }
}
