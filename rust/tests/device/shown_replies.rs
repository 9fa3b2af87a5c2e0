//! Replies shown (document 02, A11): the record's reply is lent, and any other bytes are number 10.

use crate::bench::{block10, Bench};
use crate::lent::refused;
use crate::sense_data::range_failure;
use crate::several_units::{request, SET_NO_CONFIGURATION};
use crate::shown::Stands;
use ordinary::device::{Answer, Refusal};
use ordinary::record::{stage, Record};
use ordinary::unit::table;

const RECORD: Answer = Answer::Refused(Refusal::Record);
const INQUIRY: &[u8; 36] = b"\x00\x80\x05\x02\x1F\x00\x00\x00COLLECT METER EXPORT    0100";
/// Page 80 of collector 42.
const SERIAL: &[u8; 16] = b"\x00\x80\x00\x0C000000000042";

/// Command blocks, and the replies of a unit of four blocks with its switch closed, after a Read of its block 9.
fn replies() -> [(Vec<u8>, Vec<u8>); 8] {
    let sense = range_failure(9);
    [
        (vec![0x12, 0, 0, 0, 36, 0], INQUIRY.to_vec()),
        (vec![0x12, 0, 0, 0, 5, 0], INQUIRY[..5].to_vec()),
        (vec![0x12, 1, 0x80, 0, 255, 0], SERIAL.to_vec()),
        (vec![0x12, 1, 0x80, 0, 10, 0], SERIAL[..10].to_vec()),
        (vec![0x03, 0, 0, 0, 18, 0], sense.to_vec()),
        (vec![0x03, 0, 0, 0, 7, 0], sense[..7].to_vec()),
        (vec![0x1A, 0, 0x3F, 0, 4, 0], vec![0x03, 0x00, 0x80, 0x00]),
        (block10(0x25, 0, 0).to_vec(), vec![0, 0, 0, 3, 0, 0, 2, 0]),
    ]
}

/// The last of two units has a reply due, and more is announced by `more` bytes.
fn replying(block: &[u8], size: usize, more: u32) -> Bench {
    let mut bench = Bench { unit: 1, ..Bench::units(&[2, 4]) };
    bench.set_switch(1);
    bench.command(0, true, &block10(0x28, 9, 1));
    assert_eq!(bench.status(), (0, 1));
    bench.command(size as u32 + more, true, block);
    bench
}

/// Inquiry cut to five bytes.
fn cut_inquiry() -> Bench {
    replying(&[0x12, 0, 0, 0, 5, 0], 5, 0)
}

#[test]
fn a_reply_is_shown_from_its_start() {
    for (block, reply) in replies() {
        let mut bench = replying(&block, reply.len(), 0);
        assert_eq!(bench.reply(), reply, "{block:02X?}");
        assert_eq!(bench.show(&reply), Ok(Stands::Reply(0..reply.len())), "{block:02X?}");
        assert_eq!(bench.reply(), [0; 0]);
        bench.shows_nothing(&[], Answer::Nak);
        assert_eq!(bench.status(), (0, 0));
    }
}

#[test]
fn a_short_reply_halts_after_its_packet() {
    for (block, reply) in replies() {
        let mut bench = replying(&block, reply.len(), 31);
        assert_eq!(bench.show(&reply), Ok(Stands::Reply(0..reply.len())), "{block:02X?}");
        assert!(bench.record().halt_in());
        bench.shows_nothing(&[], Answer::Stall);
        bench.clear_halt(0x81);
        assert_eq!(bench.status(), (31, 0));
    }
}

/// What is not the record's reply, in any byte or by its length. The right one is taken after all.
#[test]
fn another_reply_is_refused() {
    for (block, reply) in replies() {
        let mut bench = replying(&block, reply.len(), 0);
        for at in 0..reply.len() {
            let mut other = reply.clone();
            other[at] ^= 0x10;
            bench.shows_nothing(&other, RECORD);
        }
        let longer = [&reply[..], &[0]].concat();
        for other in [&longer[..], &reply[..reply.len() - 1], &reply[1..], &reply[..1], &[]] {
            bench.shows_nothing(other, RECORD);
        }
        assert_eq!(bench.show(&reply), Ok(Stands::Reply(0..reply.len())));
    }
}

/// The bytes that the allocation length cut off are none of the record's reply.
#[test]
fn the_uncut_reply_is_refused() {
    for length in [4, 6, 36] {
        cut_inquiry().shows_nothing(&INQUIRY[..length], RECORD);
    }
}

#[test]
fn where_no_reply_runs_the_lent_one_is_empty() {
    let read: fn(&mut Bench) = |bench| bench.command(512, true, &block10(0x28, 0, 1));
    let write: fn(&mut Bench) = |bench| bench.command(512, false, &block10(0x2A, 0, 1));
    let status: fn(&mut Bench) = |bench| bench.command(0, false, &[0; 6]);
    for (name, begin) in
        [("ready", (|_| {}) as fn(&mut Bench)), ("Read", read), ("Write", write), ("status", status)]
    {
        let mut bench = Bench::new(4);
        begin(&mut bench);
        assert_eq!(bench.reply(), [0; 0], "{name}");
        for other in [&[0][..], &INQUIRY[..5], &[0; 64]] {
            bench.shows_nothing(other, RECORD);
        }
        assert!(!matches!(bench.show(&[]), Err(Answer::Refused(_))), "{name}");
    }
}

/// The lent reply is checked before the medium, that before the configuration, and halts are looked at last.
#[test]
fn the_reply_is_checked_before_medium_and_configuration() {
    let mut bench = cut_inquiry();
    bench.medium.pop();
    bench.shows_nothing(&INQUIRY[..4], RECORD);
    bench.shows_nothing(&INQUIRY[..5], Answer::Refused(Refusal::Medium));
    bench.medium.push(0);
    request(&mut bench, [0x02, 0x03, 0, 0, 0x81, 0, 0, 0]);
    assert_eq!(bench.reply(), INQUIRY[..5]);
    bench.shows_nothing(&INQUIRY[..4], RECORD);
    bench.shows_nothing(&INQUIRY[..5], Answer::Stall);
    request(&mut bench, SET_NO_CONFIGURATION);
    assert_eq!(bench.reply(), [0; 0]);
    bench.shows_nothing(&INQUIRY[..5], RECORD);
    bench.shows_nothing(&[], Answer::Silent);
}

#[test]
fn the_reply_call_asks_for_a_buffer_of_64_bytes() {
    let bench = cut_inquiry();
    for length in [0, 5, 63] {
        let mut buffer = vec![0xEE; length];
        assert_eq!(bench.device.reply(&bench.units, &mut buffer), Answer::Refused(Refusal::Buffer));
        assert_eq!(buffer, vec![0xEE; length]);
        assert_eq!(bench.device.reply(&[], &mut buffer), RECORD);
    }
    assert_eq!(bench.device.reply(&bench.units, &mut [0; 64]), Answer::Data(5));
}

/// Records that no event leaves: the reply has the bytes before the place too.
#[test]
fn a_reply_from_its_middle() {
    let ready = Bench::new(4).record();
    let sending =
        |place, left| Record { stage: stage::INQUIRY, place, left, residue: 64, announced: 64, ..ready };
    for (place, left) in [(3, 2), (0, 36), (35, 1), (8, 20)] {
        let record = sending(place as u32, left as u32);
        let mut bench = Bench::of(&record, &table(&[4]));
        let reply = &INQUIRY[..place + left];
        assert_eq!(bench.reply(), reply);
        if place > 0 {
            bench.shows_nothing(&INQUIRY[place..place + left], RECORD);
        }
        assert_eq!(bench.show(reply), Ok(Stands::Reply(place..place + left)));
        assert_eq!((bench.record().residue, bench.record().stage), (64 - left as u32, stage::PASSED));
    }
    let mut nothing_left = Bench::of(&sending(3, 0), &table(&[4]));
    assert_eq!(nothing_left.reply(), INQUIRY[..3]);
    nothing_left.shows_nothing(&[], RECORD);
    nothing_left.shows_nothing(&INQUIRY[..3], Answer::Nak);
    assert!(refused(&sending(35, 2)));
}
