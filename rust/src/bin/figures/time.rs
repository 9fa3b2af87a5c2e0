//! Times: batches of prepared devices, timed as a whole, the two devices by turns.

use crate::scene::{medium, usual, waiting, wrapper, Scene, FIRST, LONG};
use crate::side::{play, Idle, Seat, Side};
use ordinary::device::{Device, BLOCK, PACKET};
use ordinary::record::Record;
use ordinary::scsi::code;
use ordinary::wrapper::CBW_SIZE;
use std::hint::black_box;
use std::time::Instant;

const BATCH: usize = 32;
pub const ROUNDS: usize = 10_000;
pub const LONG_ROUNDS: usize = 400;
pub const PACKETS: usize = LONG as usize * BLOCK / PACKET;

/// First quartile, median and third quartile.
pub type Quartiles = [f64; 3];

pub fn quartiles(mut samples: Vec<f64>) -> Quartiles {
    samples.sort_by(f64::total_cmp);
    [1, 2, 3].map(|quarter| samples[samples.len() * quarter / 4])
}

/// A batch of devices, and the one that each of them is to be before it is timed.
pub struct Batch<S> {
    prepared: Seat<S>,
    seats: Vec<Seat<S>>,
    pub samples: Vec<f64>,
}

impl<S: Side> Batch<S> {
    pub fn new(scene: &Scene) -> Batch<S> {
        let prepared = Seat::new(&scene.before);
        Batch { seats: vec![prepared.clone(); BATCH], prepared, samples: vec![] }
    }

    /// Times the batch as a whole, and notes the nanoseconds an event.
    pub fn round(&mut self, scene: &Scene, medium: &mut [u8]) {
        self.seats.fill(self.prepared.clone());
        let mut buffer = [0; PACKET];
        let started = Instant::now();
        let sum = play(&mut self.seats, &scene.input, medium, &mut buffer);
        let time = started.elapsed().as_nanos() as f64;
        let events = BATCH * scene.input.events();
        assert!(sum as usize <= events, "{}: an event was refused", scene.name);
        black_box(buffer);
        self.samples.push(time / events as f64);
    }
}

/// Nanoseconds an event, of the ordinary and of the proved device, less those of a device that does nothing.
pub fn events(scene: &Scene) -> [Quartiles; 2] {
    let mut medium = scene.medium();
    let mut idle = Batch::<Idle>::new(scene);
    let mut ordinary = Batch::<Device>::new(scene);
    let mut proved = Batch::<Record>::new(scene);
    for round in 0..ROUNDS {
        idle.round(scene, &mut medium);
        if round % 2 == 0 {
            ordinary.round(scene, &mut medium);
            proved.round(scene, &mut medium);
        } else {
            proved.round(scene, &mut medium);
            ordinary.round(scene, &mut medium);
        }
    }
    let [_, nothing, _] = quartiles(idle.samples);
    [ordinary.samples, proved.samples].map(|samples| quartiles(samples).map(|time| time - nothing))
}

/// Nanoseconds an event, of the proved device, of one event over units of several sizes.
pub fn by_turns(scenes: &[&Scene]) -> Vec<Quartiles> {
    let mut idle = Batch::<Idle>::new(scenes[0]);
    let mut media: Vec<_> =
        scenes.iter().map(|scene| (scene, scene.medium(), Batch::<Record>::new(scene))).collect();
    for _ in 0..ROUNDS {
        idle.round(scenes[0], &mut media[0].1);
        for (scene, medium, proved) in &mut media {
            proved.round(scene, medium);
        }
    }
    let [_, nothing, _] = quartiles(idle.samples);
    let less = |samples| quartiles(samples).map(|time| time - nothing);
    media.into_iter().map(|(_, _, proved)| less(proved.samples)).collect()
}

pub fn long_read<S: Side>(seat: &mut Seat<S>, medium: &mut [u8], wrapper: &[u8]) -> u32 {
    let mut buffer = [0; PACKET];
    let mut sum = seat.bulk_out(medium, wrapper);
    for _ in 0..PACKETS + 1 {
        sum += seat.bulk_in(medium, black_box(&mut buffer));
    }
    sum
}

fn long_write<S: Side>(seat: &mut Seat<S>, medium: &mut [u8], wrapper: &[u8]) -> u32 {
    let mut sum = seat.bulk_out(medium, wrapper);
    for _ in 0..PACKETS {
        sum += seat.bulk_out(medium, black_box(&[0xA5; PACKET]));
    }
    sum + seat.bulk_in(medium, &mut [0; PACKET])
}

/// Megabytes a second of a whole transfer, and so many acks in it.
pub fn timed(acks: usize, transfer: impl FnOnce() -> u32) -> f64 {
    let started = Instant::now();
    let sum = transfer();
    let time = started.elapsed().as_secs_f64();
    assert_eq!(sum as usize, acks, "a long transfer was not carried through");
    (PACKETS * PACKET) as f64 / time / 1e6
}

fn rate<S: Side>(seat: &mut Seat<S>, medium: &mut [u8], wrapper: &[u8; CBW_SIZE]) -> f64 {
    match wrapper[15] {
        code::READ => timed(1, || long_read(seat, medium, wrapper)),
        _ => timed(1 + PACKETS, || long_write(seat, medium, wrapper)),
    }
}

/// Megabytes a second over a whole read or write in the last of so many units: wrapper, data, status.
pub fn transfers(operation: u8, count: usize) -> [Quartiles; 2] {
    let units = usual(count);
    let (mut medium, before) = (medium(&units), waiting(&units));
    let wrapper = wrapper(&units, operation, FIRST, LONG);
    let (mut ordinary, mut proved) = (Seat::<Device>::new(&before), Seat::<Record>::new(&before));
    let mut samples = [vec![], vec![]];
    for round in 0..LONG_ROUNDS {
        for side in [round % 2, 1 - round % 2] {
            samples[side].push(match side {
                0 => rate(&mut ordinary, &mut medium, &wrapper),
                _ => rate(&mut proved, &mut medium, &wrapper),
            });
        }
    }
    samples.map(quartiles)
}
