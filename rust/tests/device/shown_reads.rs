//! A Read shown packet by packet (document 02, A11): where each packet stands, and what the device is after it.

use crate::bench::{block10, Bench};
use crate::several_units::{request, SET_NO_CONFIGURATION};
use crate::shown::Stands;
use ordinary::device::{Answer, Refusal};
use ordinary::record::{stage, Record};
use ordinary::unit::table;

/// Unit 2 of these begins at block 5, byte 2,560.
const SIZES: [u32; 4] = [3, 2, 5, 4];
const UNIT: u8 = 2;
const SET_HALT_IN: [u8; 8] = [0x02, 0x03, 0, 0, 0x81, 0, 0, 0];

/// A Read of the unit from its block 1 on, byte 3,072 of the medium. No two packets of the medium are alike.
fn reading(announced: u32, count: u16) -> Bench {
    let mut bench = Bench { unit: UNIT, ..Bench::units(&SIZES) };
    bench.medium.chunks_mut(64).zip(0..).for_each(|(packet, at)| packet.fill(at));
    bench.command(announced, true, &block10(0x28, 1, count));
    bench
}

#[test]
fn each_packet_is_shown_where_it_stands() {
    let mut bench = reading(1536, 3);
    for packet in 0..24 {
        let start = 3072 + 64 * packet;
        assert_eq!(bench.show(&[]), Ok(Stands::Medium(start..start + 64)));
        assert_eq!(bench.record().residue, 1536 - 64 * (packet as u32 + 1));
    }
    bench.shows_nothing(&[], Answer::Nak);
    assert_eq!(bench.status(), (0, 0));
    bench.shows_nothing(&[], Answer::Nak);
}

#[test]
fn every_unit_s_blocks_are_shown_from_its_part() {
    for (unit, first) in [(0, 0), (1, 3), (2, 5), (3, 10)] {
        let mut bench = Bench { unit, ..Bench::units(&SIZES) };
        bench.command(512, true, &block10(0x28, 1, 1));
        let start = 512 * (first + 1);
        assert_eq!(bench.show(&[]), Ok(Stands::Medium(start..start + 64)), "{unit}");
    }
}

/// Each leaves what the other would have left.
#[test]
fn showing_and_copying_take_turns() {
    let mut bench = reading(1024, 2);
    for packet in 0..16 {
        let start = 3072 + 64 * packet;
        let mut copied = Bench { device: bench.device.clone(), ..reading(1024, 2) };
        assert_eq!(copied.ask().as_deref(), Ok(&bench.medium[start..start + 64]));
        if packet % 3 == 0 {
            assert!(bench.ask().is_ok());
        } else {
            assert_eq!(bench.show(&[]), Ok(Stands::Medium(start..start + 64)));
        }
        assert_eq!(bench.device, copied.device, "{packet}");
    }
    assert_eq!(bench.status(), (0, 0));
}

/// 1,000 bytes are announced for a block: 488 are left over.
#[test]
fn the_last_packet_of_a_short_read_halts() {
    let mut bench = reading(1000, 1);
    for packet in 0..8 {
        assert!(!bench.record().halt_in());
        let start = 3072 + 64 * packet;
        assert_eq!(bench.show(&[]), Ok(Stands::Medium(start..start + 64)));
    }
    assert!(bench.record().halt_in() && bench.record().status_due());
    bench.shows_nothing(&[], Answer::Stall);
    bench.clear_halt(0x81);
    bench.shows_nothing(&[], Answer::Nak);
    assert_eq!(bench.status(), (488, 0));
}

#[test]
fn a_status_is_not_shown() {
    for (block, verdict) in [
        (&[0; 6][..], 0),
        (&block10(0x28, 5, 1), 1),
        // A Read that the host has announced nothing for.
        (&block10(0x28, 0, 1), 2),
    ] {
        let mut bench = Bench { unit: UNIT, ..Bench::units(&SIZES) };
        bench.command(0, true, block);
        bench.shows_nothing(&[], Answer::Nak);
        assert_eq!(bench.status(), (0, verdict));
    }
}

#[test]
fn a_halted_pipe_stalls_and_keeps_its_place() {
    let mut bench = reading(512, 1);
    assert_eq!(bench.show(&[]), Ok(Stands::Medium(3072..3136)));
    request(&mut bench, SET_HALT_IN);
    bench.shows_nothing(&[], Answer::Stall);
    bench.clear_halt(0x81);
    assert_eq!(bench.show(&[]), Ok(Stands::Medium(3136..3200)));
}

#[test]
fn nothing_is_shown_where_no_data_in_is_due() {
    let mut bench = Bench { unit: UNIT, ..Bench::units(&SIZES) };
    bench.shows_nothing(&[], Answer::Nak);
    bench.command(512, false, &block10(0x2A, 0, 1));
    bench.shows_nothing(&[], Answer::Nak);
    // Too short for a wrapper: both pipes are locked.
    let mut bench = Bench::units(&SIZES);
    assert_eq!(bench.send(&[0; 30]), Answer::Stall);
    bench.shows_nothing(&[], Answer::Stall);
}

/// The medium's length is asked for before the configuration.
#[test]
fn medium_and_configuration_are_checked() {
    let mut bench = reading(512, 1);
    let own = bench.medium.clone();
    for length in [0, own.len() - 512, own.len() - 1, own.len() + 1, own.len() + 512] {
        bench.medium.resize(length, 0);
        bench.shows_nothing(&[], Answer::Refused(Refusal::Medium));
    }
    bench.medium.clone_from(&own);
    request(&mut bench, SET_NO_CONFIGURATION);
    bench.shows_nothing(&[], Answer::Silent);
    bench.medium.clear();
    bench.shows_nothing(&[], Answer::Refused(Refusal::Medium));
}

/// Records that no event leaves: a place within a packet, fewer bytes left than a packet has, and none.
#[test]
fn any_part_of_a_unit_is_shown() {
    let ready = Bench::units(&SIZES).record();
    for (place, left, end) in [(100, 30, 130), (1, 64, 65), (2559, 1, 2560), (511, 65, 575)] {
        let record = Record { stage: stage::DATA_IN, unit: UNIT, place, left, ..ready };
        let mut bench =
            Bench::of(&Record { residue: left + 7, announced: left + 7, ..record }, &table(&SIZES));
        assert_eq!(bench.show(&[]), Ok(Stands::Medium(2560 + place as usize..2560 + end)));
        let after = bench.record();
        let count = end as u32 - place;
        assert_eq!((after.residue, after.halt_in()), (left + 7 - count, left == count));
        assert_eq!(after.stage, if left == count { stage::PASSED } else { stage::DATA_IN });
    }
    let none = Record { stage: stage::DATA_IN, unit: UNIT, place: 64, residue: 9, announced: 9, ..ready };
    Bench::of(&none, &table(&SIZES)).shows_nothing(&[], Answer::Nak);
}
