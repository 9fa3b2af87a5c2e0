//! Which Writes the ledger's tally takes data for (§ Words of demand 3; document 02, A13).

use crate::bench::block10;
use crate::history::{audit, command, sent, status, Entry, Told, SIZES};
use ordinary::ledger::Fault;

/// A Write's block with one byte changed.
fn changed(place: usize, byte: u8) -> [u8; 10] {
    let mut block = block10(0x2A, 0, 1);
    block[place] = byte;
    block
}

fn switch(position: u8, unit: u8) -> Entry {
    Entry::acked(Told::Switch { position, unit })
}

/// The bytes counted for a wrapper that a block's packets follow, all acked; `None` where its first packet is not taken
/// as data.
fn counted(before: &[Entry], wrapper: Entry) -> Option<u64> {
    let history = [before, &[wrapper], &vec![sent(64); 8]].concat();
    match audit(&history) {
        Ok(book) => Some(book.commands[0].counted),
        Err((place, fault)) => {
            assert_eq!((place, fault), (before.len() + 1, Fault::Unreadable));
            None
        }
    }
}

#[test]
fn a_write_that_passes_has_its_blocks_counted() {
    for (unit, blocks) in (0..).zip(SIZES) {
        for announced in [512, 513, u32::MAX] {
            let last = block10(0x2A, blocks - 1, 1);
            assert_eq!(counted(&[], command(1, unit, announced, false, &last)), Some(512));
        }
    }
    for (place, byte) in [(1, 0x1F), (6, 0xFF), (9, 0xF8)] {
        let ignored = command(1, 0, 512, false, &changed(place, byte));
        assert_eq!(counted(&[], ignored), Some(512), "byte {place}");
    }
}

#[test]
fn a_write_that_fails_or_meets_no_data_takes_none() {
    for (place, bit) in [(1, 5), (1, 6), (1, 7), (9, 0), (9, 1), (9, 2), (2, 0), (5, 3)] {
        let wrapper = command(1, 0, 512, false, &changed(place, 1 << bit));
        assert_eq!(counted(&[], wrapper), None, "byte {place}, bit {bit}");
    }
    let good = block10(0x2A, 0, 1);
    assert_eq!(counted(&[], command(1, 0, 511, false, &good)), None);
    assert_eq!(counted(&[], command(1, 0, 0, false, &good)), None);
    assert_eq!(counted(&[], command(1, 0, 512, true, &good)), None);
    assert_eq!(counted(&[], command(1, 0, 512, false, &block10(0x2A, 0, 0))), None);
    assert_eq!(counted(&[], command(1, 0, 1023, false, &block10(0x2A, 0, 2))), None);
    assert_eq!(counted(&[], command(1, 0, 512, false, &block10(0x2A, u32::MAX, 1))), None);
    for code in [0x28, 0x2F] {
        assert_eq!(counted(&[], command(1, 0, 512, false, &block10(code, 0, 1))), None, "{code:02X}");
    }
    // Block 3 is in unit 0 alone.
    assert_eq!(counted(&[], command(1, 0, 512, false, &block10(0x2A, 3, 1))), Some(512));
    assert_eq!(counted(&[], command(1, 1, 512, false, &block10(0x2A, 3, 1))), None);
}

#[test]
fn a_write_goes_by_its_own_unit_s_switch() {
    for unit in 0..2 {
        let write = command(1, unit, 512, false, &block10(0x2A, 0, 1));
        assert_eq!(counted(&[switch(1, unit)], write.clone()), None);
        assert_eq!(counted(&[switch(1, 1 - unit)], write.clone()), Some(512));
        assert_eq!(counted(&[switch(1, unit), switch(0, unit)], write.clone()), Some(512));
        let refused = Entry { number: 18, ..switch(1, unit) };
        assert_eq!(counted(&[refused], write), Some(512));
    }
}

/// No drop opens a switch.
#[test]
fn a_drop_leaves_the_switch() {
    let drop = Entry::acked(Told::BusReset);
    let write = command(1, 0, 512, false, &block10(0x2A, 0, 1));
    assert_eq!(counted(&[switch(1, 0), drop], write), None);
}

/// A switch that is closed during a Write counts from the next wrapper.
#[test]
fn a_write_under_way_goes_on() {
    let write = command(1, 0, 512, false, &block10(0x2A, 0, 1));
    let packets = [vec![sent(64); 7], vec![switch(1, 0), sent(64), status(1, 0, 0)]].concat();
    assert!(audit(&[vec![write], packets].concat()).is_ok());
}

/// The tally ends with the last block, with another length, and with a drop: the packet after it is a wrapper.
#[test]
fn a_write_ends() {
    let write = command(1, 0, 2000, false, &block10(0x2A, 0, 2));
    let next = command(2, 0, 0, false, &[0; 6]);
    for (packets, residue) in [
        (vec![sent(64); 16], 976),
        (vec![sent(0)], 2000),
        ([vec![sent(64); 15], vec![sent(63)]].concat(), 1488),
    ] {
        let ends = [vec![write.clone()], packets, vec![status(1, residue, 0), next.clone()]].concat();
        let book = audit(&ends).unwrap();
        assert_eq!((book.commands.len(), book.statuses.len()), (2, 1));
    }
    let held = [vec![write.clone()], vec![sent(64); 15], vec![Entry::acked(Told::BusReset), write]].concat();
    let book = audit(&[held, vec![sent(64); 7]].concat()).unwrap();
    assert_eq!(book.commands[0].counted, 0);
}
