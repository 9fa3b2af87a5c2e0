//! The ledger counts the bytes of showing calls as those of asks (document 02, A11 and A13).

use crate::bench::Bench;
use crate::history::{audit, Entry, Told, DATA, SIZES};
use crate::ledger::worked;

/// The worked histories with each ask for data made by the showing call.
fn shown() -> [Vec<Entry>; 5] {
    let told = |entry: Entry| match entry {
        Entry { event: Told::BulkIn, number: DATA, bytes } if bytes.len() != 13 => {
            Entry { event: Told::Show, number: DATA, bytes }
        }
        other => other,
    };
    worked().map(|book| book.into_iter().map(told).collect())
}

#[test]
fn shown_bytes_are_counted() {
    let shows = |entry: &&Entry| entry.event == Told::Show;
    assert_eq!(shown().concat().iter().filter(shows).count(), 9);
    for (shown, copied) in shown().iter().zip(worked()) {
        assert_eq!(audit(shown), audit(&copied));
    }
}

#[test]
fn the_ordinary_device_gives_the_shown_history() {
    let mut bench = Bench::units(&SIZES);
    for entry in shown().concat() {
        assert_eq!(entry.play(&mut bench), entry);
    }
}
