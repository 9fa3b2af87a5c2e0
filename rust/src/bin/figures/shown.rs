//! A long read's packets by the copying and by the showing call (document 02, A11): both calls of both devices by turns.

use crate::scene::{medium, reading, usual, waiting, wrapper, Input, Scene, FIRST, LONG};
use crate::side::{Idle, Seat, Side};
use crate::time::{long_read, quartiles, timed, Batch, Quartiles, LONG_ROUNDS, PACKETS, ROUNDS};
use ordinary::device::{Device, PACKET};
use ordinary::record::Record;
use ordinary::scsi::code;

/// Both devices' calls, in the order of all figures here.
pub const CALLS: [&str; 4] = ["ordinary, copied", "ordinary, shown", "proved, copied", "proved, shown"];

/// A packet of a long read on a table of so many units, copied and shown.
pub fn scenes(count: usize) -> [Scene; 2] {
    let units = usual(count);
    let read = wrapper(&units, code::READ, FIRST, LONG);
    [("data-in", "copied", Input::Ask), ("shown", "shown", Input::Show)].map(|(key, call, input)| Scene {
        key,
        name: format!("bulk-in data, 64 bytes of a long read, {call}"),
        before: reading(&units, &read, 500),
        input,
    })
}

/// One device's batches for each of the two calls.
fn batches<S: Side>(scenes: &[Scene; 2]) -> [Batch<S>; 2] {
    scenes.each_ref().map(|scene| Batch::new(scene))
}

/// Nanoseconds an event of each call, less those of a device that does nothing.
pub fn events(scenes: &[Scene; 2]) -> [Quartiles; CALLS.len()] {
    let mut medium = scenes[0].medium();
    let mut idle = batches::<Idle>(scenes);
    let mut ordinary = batches::<Device>(scenes);
    let mut proved = batches::<Record>(scenes);
    for round in 0..ROUNDS {
        for call in [round % 2, 1 - round % 2] {
            idle[call].round(&scenes[call], &mut medium);
        }
        for turn in 0..CALLS.len() {
            let (side, call) = ((round + turn) / 2 % 2, (round + turn) % 2);
            match side {
                0 => ordinary[call].round(&scenes[call], &mut medium),
                _ => proved[call].round(&scenes[call], &mut medium),
            }
        }
    }
    let nothing = idle.map(|batch| quartiles(batch.samples)[1]);
    let [[a, b], [c, d]] = [ordinary.map(|batch| batch.samples), proved.map(|batch| batch.samples)];
    let less = |samples, call: usize| quartiles(samples).map(|time| time - nothing[call]);
    [less(a, 0), less(b, 1), less(c, 0), less(d, 1)]
}

/// The data is shown and not read; the status is copied.
fn long_show<S: Side>(seat: &mut Seat<S>, medium: &mut [u8], wrapper: &[u8]) -> u32 {
    let mut sum = seat.bulk_out(medium, wrapper);
    for _ in 0..PACKETS {
        sum += seat.show(medium);
    }
    sum + seat.bulk_in(medium, &mut [0; PACKET])
}

fn rate<S: Side>(call: usize, seat: &mut Seat<S>, medium: &mut [u8], wrapper: &[u8]) -> f64 {
    match call {
        0 => timed(1, || long_read(seat, medium, wrapper)),
        _ => timed(1, || long_show(seat, medium, wrapper)),
    }
}

/// Megabytes a second over a whole read in the last of so many units by each call: wrapper, data, status.
pub fn transfers(count: usize) -> [Quartiles; CALLS.len()] {
    let units = usual(count);
    let (mut medium, before) = (medium(&units), waiting(&units));
    let wrapper = wrapper(&units, code::READ, FIRST, LONG);
    let (mut ordinary, mut proved) = (Seat::<Device>::new(&before), Seat::<Record>::new(&before));
    let mut samples = [const { vec![] }; CALLS.len()];
    for round in 0..LONG_ROUNDS {
        for turn in 0..CALLS.len() {
            let (side, call) = ((round + turn) / 2 % 2, (round + turn) % 2);
            samples[2 * side + call].push(match side {
                0 => rate(call, &mut ordinary, &mut medium, &wrapper),
                _ => rate(call, &mut proved, &mut medium, &wrapper),
            });
        }
    }
    samples.map(quartiles)
}
