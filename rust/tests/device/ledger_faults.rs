//! Histories of wrong devices: each is the worked one with one thing changed, and is out of balance (document 02, A13).

use crate::bench::block10;
use crate::history::{audit, command, done, given, sent, status, Entry, Told};
use crate::ledger::worked;
use crate::several_units::MASS_STORAGE_RESET;
use ordinary::ledger::Fault;

/// What a wrong device gives in an entry's place.
struct Change {
    fault: &'static str,
    at: Entry,
    instead: Vec<Entry>,
    shown_as: Fault,
}

fn change(fault: &'static str, at: Entry, instead: &[Entry], shown_as: Fault) -> Change {
    Change { fault, at, instead: instead.to_vec(), shown_as }
}

/// Residues that the bytes counted do not bear out.
fn residues() -> Vec<Change> {
    let other = |fault, (tag, residue, verdict), instead, place| {
        let given = [status(tag, instead, verdict)];
        change(fault, status(tag, residue, verdict), &given, Fault::Residue { place })
    };
    vec![
        other("an invented residue", (1, 488, 0), 487, 0),
        other("a short read as complete", (1, 488, 0), 0, 0),
        other("a block that did not arrive", (2, 512, 2), 0, 1),
        other("bytes of a part block", (2, 512, 2), 448, 1),
        other("no block of a cut Write", (2, 512, 2), 1024, 1),
        other("more than was announced", (3, 18, 2), 19, 0),
        other("a phase error with no residue", (3, 18, 2), 0, 0),
        other("a failure with no residue", (4, 512, 1), 0, 0),
        other("a short reply as complete", (5, 28, 0), 0, 1),
        other("a short write as complete", (6, 88, 0), 0, 2),
        other("the residue of the command before", (6, 88, 0), 28, 2),
    ]
}

fn tags() -> Vec<Change> {
    let other = |fault, (tag, residue, verdict), instead, place| {
        let given = [status(instead, residue, verdict)];
        change(fault, status(tag, residue, verdict), &given, Fault::Tag { place })
    };
    vec![
        other("the tag of the wrapper before", (2, 512, 2), 1, 1),
        other("a tag of no wrapper", (1, 488, 0), 0, 0),
        other("a tag of the book before", (3, 18, 2), 2, 0),
    ]
}

fn numbers() -> Vec<Change> {
    let [reset, bus_reset] = [done(MASS_STORAGE_RESET), Entry::acked(Told::BusReset)];
    let [first, fifth] = [status(1, 488, 0), status(5, 28, 0)];
    let number = |commands, statuses| Fault::Number { commands, statuses };
    vec![
        change("a status after a drop", reset.clone(), &[reset, status(2, 512, 2)], number(0, 1)),
        change(
            "a status of the command that a drop cut",
            bus_reset.clone(),
            &[bus_reset, status(7, 512, 2)],
            number(0, 1),
        ),
        change("a status twice", first.clone(), &[first.clone(), first], number(1, 2)),
        change("no status before the next command", fifth, &[], number(3, 1)),
    ]
}

fn data() -> Vec<Change> {
    let [first, reset] = [status(1, 488, 0), done(MASS_STORAGE_RESET)];
    let bus_reset = Entry::acked(Told::BusReset);
    let packet = given(&[0; 64]);
    vec![
        change("data after its status", first.clone(), &[first, packet.clone()], Fault::Residue { place: 0 }),
        change("data after a drop", reset.clone(), &[reset, packet], Fault::Stray(64)),
        change(
            "a Write that goes on after a drop",
            bus_reset.clone(),
            &[bus_reset, sent(64)],
            Fault::Unreadable,
        ),
    ]
}

/// Those that are shown otherwise, or not at all.
fn missed(changes: Vec<Change>) -> Vec<&'static str> {
    let history = worked().concat();
    let is_missed = |change: &Change| {
        let place = history.iter().position(|entry| *entry == change.at).expect(change.fault);
        let mut wrong = history.clone();
        wrong.splice(place..=place, change.instead.clone());
        audit(&wrong).map_err(|(_, fault)| fault) != Err(change.shown_as)
    };
    changes.into_iter().filter(is_missed).map(|change| change.fault).collect()
}

#[test]
fn wrong_residues_are_out_of_balance() {
    assert_eq!(missed(residues()), [""; 0]);
}

#[test]
fn wrong_tags_are_out_of_balance() {
    assert_eq!(missed(tags()), [""; 0]);
}

#[test]
fn a_status_too_many_or_too_few_is_out_of_balance() {
    assert_eq!(missed(numbers()), [""; 0]);
}

#[test]
fn data_out_of_turn_is_out_of_balance() {
    assert_eq!(missed(data()), [""; 0]);
}

/// A data-in packet too few, and too many.
#[test]
fn a_read_s_packets_are_counted() {
    for packets in [0, 1, 7, 9] {
        let read = command(1, 0, 512, true, &block10(0x28, 0, 1));
        let history = [vec![read], vec![given(&[0; 64]); packets], vec![status(1, 0, 0)]].concat();
        assert_eq!(audit(&history), Err((packets + 1, Fault::Residue { place: 0 })), "{packets}");
    }
}
