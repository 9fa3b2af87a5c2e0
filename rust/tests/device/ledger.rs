//! The ledger (document 02, A13): a history with its books worked out by hand, and what is booked and what is not.

use crate::bench::{block10, Bench};
use crate::history::{audit, command, done, given, halted, sent, status, Entry, Told, DATA, SIZES};
use crate::several_units::{MASS_STORAGE_RESET, SET_CONFIGURATION, SET_NO_CONFIGURATION};
use ordinary::ledger::{Book, Command, Fault, Ledger, Status};

const CLEAR_OUT: [u8; 8] = [0x02, 0x01, 0, 0, 0x02, 0, 0, 0];
const CLEAR_IN: [u8; 8] = [0x02, 0x01, 0, 0, 0x81, 0, 0, 0];
const INQUIRY: [u8; 6] = [0x12, 0, 0, 0, 36, 0];
const INQUIRY_DATA: &[u8] = b"\x00\x80\x05\x02\x1F\x00\x00\x00COLLECT METER EXPORT    0100";

/// A short read, then a Write that a packet of 10 cuts after one block and one packet.
fn first_book() -> Vec<Entry> {
    let mut book = vec![done(SET_CONFIGURATION), command(1, 0, 1000, true, &block10(0x28, 1, 1))];
    book.extend(vec![given(&[0; 64]); 8]);
    book.extend(halted());
    book.extend([status(1, 488, 0), command(2, 1, 1024, false, &block10(0x2A, 0, 2))]);
    book.extend(vec![sent(64); 9]);
    book.extend([sent(10), status(2, 512, 2)]);
    book
}

/// A phase error found at the wrapper: less is announced than Inquiry has.
fn second_book() -> Vec<Entry> {
    let mut book = vec![done(MASS_STORAGE_RESET), done(CLEAR_IN), done(CLEAR_OUT)];
    book.push(command(3, 0, 18, true, &INQUIRY));
    book.extend(halted());
    book.push(status(3, 18, 2));
    book
}

/// A failure, a short reply and a short write; then a Write that the drop cuts with part of a block held.
fn third_book() -> Vec<Entry> {
    let mut book = vec![done(SET_CONFIGURATION), command(4, 1, 512, true, &block10(0x28, 3, 1))];
    book.extend(halted());
    book.extend([status(4, 512, 1), command(5, 1, 64, true, &INQUIRY), given(INQUIRY_DATA)]);
    book.extend(halted());
    book.extend([status(5, 28, 0), command(6, 0, 600, false, &block10(0x2A, 3, 1))]);
    book.extend(vec![sent(64); 8]);
    book.extend([status(6, 88, 0), done(CLEAR_OUT), command(7, 0, 1024, false, &block10(0x2A, 0, 2))]);
    book.extend(vec![sent(64); 11]);
    book
}

/// Nothing is due of the command that was cut.
fn fourth_book() -> Vec<Entry> {
    vec![Entry::acked(Told::BusReset)]
}

fn fifth_book() -> Vec<Entry> {
    vec![done(SET_CONFIGURATION), command(8, 0, 0, false, &[0; 6]), status(8, 0, 0)]
}

/// Each book with the drop that opens it.
pub fn worked() -> [Vec<Entry>; 5] {
    [first_book(), second_book(), third_book(), fourth_book(), fifth_book()]
}

/// A book by hand: tag, announced length and bytes counted of each command; tag and residue of each status.
fn by_hand(commands: &[(u32, u32, u64)], statuses: &[(u32, u32)]) -> Book {
    let command = |(tag, announced, counted): &(u32, u32, u64)| Command {
        tag: *tag,
        announced: *announced,
        counted: *counted,
    };
    let status = |(tag, residue): &(u32, u32)| Status { tag: *tag, residue: *residue };
    Book {
        commands: commands.iter().map(command).collect(),
        statuses: statuses.iter().map(status).collect(),
        ..Book::default()
    }
}

#[test]
fn the_worked_history_has_the_books_made_by_hand() {
    let books = [
        by_hand(&[(1, 1000, 512), (2, 1024, 512)], &[(1, 488), (2, 512)]),
        by_hand(&[(3, 18, 0)], &[(3, 18)]),
        by_hand(&[(4, 512, 0), (5, 64, 36), (6, 600, 512), (7, 1024, 512)], &[(4, 512), (5, 28), (6, 88)]),
        by_hand(&[], &[]),
        by_hand(&[(8, 0, 0)], &[(8, 0)]),
    ];
    let mut ledger = Ledger::new(&SIZES);
    for (entries, book) in worked().iter().zip(books) {
        for entry in entries {
            entry.note(&mut ledger);
            assert_eq!(ledger.book().balance(), Ok(()), "{entry:02X?}");
        }
        assert_eq!(*ledger.book(), book);
    }
}

#[test]
fn the_ordinary_device_gives_the_worked_history() {
    let mut bench = Bench::units(&SIZES);
    for entry in worked().concat() {
        assert_eq!(entry.play(&mut bench), entry);
    }
}

/// The book that these entries leave.
fn book(entries: &[Entry]) -> Book {
    audit(entries).unwrap()
}

#[test]
fn each_drop_ends_the_book_and_nothing_else_does() {
    let begun = command(1, 0, 512, true, &block10(0x28, 0, 1));
    let drops = [MASS_STORAGE_RESET, SET_CONFIGURATION, SET_NO_CONFIGURATION].map(done);
    for drop in drops.iter().chain([&Entry::acked(Told::BusReset)]) {
        assert_eq!(book(&[begun.clone(), given(&[0; 64]), drop.clone()]), Book::default(), "{drop:02X?}");
    }
    let set_address = done([0x00, 0x05, 5, 0, 0, 0, 0, 0]);
    let set_halt = done([0x02, 0x03, 0, 0, 0x81, 0, 0, 0]);
    let switch = Entry::acked(Told::Switch { position: 1, unit: 0 });
    for other in [set_address, set_halt, done(CLEAR_IN), done(CLEAR_OUT), switch] {
        assert_eq!(book(&[begun.clone(), other]), by_hand(&[(1, 512, 0)], &[]));
    }
}

/// What one book lacks is not asked of the next.
#[test]
fn a_book_out_of_balance_ends_with_the_drop() {
    for fault in [given(&[0; 64]), status(1, 0, 0), sent(64)] {
        let mut ledger = Ledger::new(&SIZES);
        fault.note(&mut ledger);
        assert!(ledger.book().balance().is_err(), "{fault:02X?}");
        done(MASS_STORAGE_RESET).note(&mut ledger);
        assert_eq!(*ledger.book(), Book::default(), "{fault:02X?}");
    }
}

/// Refusals, naks, stalls and silence, to any event. Whatever the buffer holds then is not handed out.
#[test]
fn what_is_not_taken_is_not_booked() {
    let before = [command(1, 0, 1024, false, &block10(0x2A, 0, 2)), sent(64)];
    let after = [vec![sent(64); 7], vec![sent(3), status(1, 512, 2)]].concat();
    let events = [
        Entry::acked(Told::BusReset),
        done(MASS_STORAGE_RESET),
        done(SET_CONFIGURATION),
        command(2, 0, 0, false, &[0; 6]),
        sent(64),
        sent(7),
        given(&[0; 64]),
        status(1, 1024, 0),
        Entry::acked(Told::Switch { position: 1, unit: 0 }),
    ];
    for number in [2, 3, 4, 10, 11, 12, 13, 14, 15, 18] {
        let refused = events.clone().map(|entry| Entry { number, ..entry });
        let book = book(&[&before[..], &refused, &after].concat());
        assert_eq!(book, by_hand(&[(1, 1024, 512)], &[(1, 512)]), "{number}");
    }
}

/// The control pipe's data is no data of a command, and no status.
#[test]
fn the_control_pipe_s_bytes_are_not_booked() {
    let event = Told::Control([0x80, 0x06, 0, 1, 0, 0, 18, 0]);
    for bytes in [vec![0x12; 18], status(1, 0, 0).bytes] {
        let entry = Entry { event: event.clone(), number: DATA, bytes };
        assert_eq!(book(&[entry]), Book::default());
    }
}

/// A status wrapper is known by its 13 bytes and their first four.
#[test]
fn data_may_look_like_a_status() {
    let mut block = status(9, 0, 0).bytes;
    let read = |announced| command(1, 0, announced, true, &block10(0x28, 0, 1));
    let almost = [&b"USBT"[..], &block[4..]].concat();
    assert_eq!(book(&[read(13), given(&almost)]), by_hand(&[(1, 13, 13)], &[]));
    assert_eq!(book(&[read(12), given(&block[..12])]), by_hand(&[(1, 12, 12)], &[]));
    block.resize(64, 0);
    assert_eq!(book(&[read(64), given(&block)]), by_hand(&[(1, 64, 64)], &[]));
}

/// Both are read little endian and whole.
#[test]
fn tag_and_residue_are_read_whole() {
    let entries = [command(0x826A_6008, 0, 0x0102_0304, true, &[0; 6]), status(0x826A_6008, 0x0102_0304, 0)];
    let expected = by_hand(&[(0x826A_6008, 0x0102_0304, 0)], &[(0x826A_6008, 0x0102_0304)]);
    assert_eq!(book(&entries), expected);
}

/// A packet that no device may accept has no tag that its status could carry.
#[test]
fn an_acked_packet_that_is_no_wrapper_is_a_fault() {
    let beyond = command(1, 2, 0, false, &[0; 6]);
    for packet in [sent(0), sent(31), sent(64), beyond] {
        assert_eq!(audit(&[packet]), Err((0, Fault::Unreadable)));
    }
}
