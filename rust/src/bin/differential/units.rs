//! The units of tables of one to four, as rows of what a run has met.

/// The number of a table's units, and one of them.
pub const UNITS: [(usize, u8); 10] =
    [(1, 0), (2, 0), (2, 1), (3, 0), (3, 1), (3, 2), (4, 0), (4, 1), (4, 2), (4, 3)];
/// Those of tables that have another unit beside it.
pub const FIRST_OF_SEVERAL: usize = 1;
pub const COUNTS: [&str; 4] = ["1 unit", "2 units", "3 units", "4 units"];

/// The place in `UNITS`; `None` where there is no such table.
pub fn row(count: usize, unit: u8) -> Option<usize> {
    UNITS.iter().position(|known| *known == (count, unit))
}

pub fn names() -> [String; UNITS.len()] {
    UNITS.map(|(count, unit)| format!("unit {unit} of {count}"))
}

/// The place in `COUNTS`; `None` where there is no such table.
pub fn column(count: usize) -> Option<usize> {
    count.checked_sub(1).filter(|at| *at < COUNTS.len())
}
