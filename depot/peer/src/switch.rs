//! The write switches: their positions (document 02, A4) and whose they are (A7), as orders, the log and recordings have them.

#[derive(Clone, Copy, PartialEq, Eq)]
pub enum Position {
    Open = 0,
    Closed = 1,
}

impl Position {
    pub fn named(word: &str) -> Option<Position> {
        [Position::Open, Position::Closed].into_iter().find(|position| position.name() == word)
    }

    pub fn numbered(byte: u8) -> Option<Position> {
        [Position::Open, Position::Closed].into_iter().find(|position| *position as u8 == byte)
    }

    pub fn name(self) -> &'static str {
        match self {
            Position::Open => "open",
            Position::Closed => "closed",
        }
    }
}

/// A hand at the switch of one unit.
#[derive(Clone, Copy)]
pub struct Turn {
    pub position: Position,
    pub unit: u8,
}

impl Turn {
    pub fn named(position: &str, unit: &str) -> Result<Turn, String> {
        let position = Position::named(position).ok_or_else(|| format!("{position} is no position"))?;
        let unit = unit.parse().map_err(|_| format!("{unit} is no unit"))?;
        Ok(Turn { position, unit })
    }
}
