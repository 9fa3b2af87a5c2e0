//! The figures of the ordinary and of the proved device, in lines of words parted by tabs; the script `bench` makes
//! the table of them.
//!
//! - `figures time`: for each kind of event the quartiles of its time, with one unit and with four, then those of long
//!   transfers, then those of a long read copied and shown, then those of the same events over small and large units.
//! - `figures count <kind> ordinary|proved|idle <events>`: plays so many events, to count instructions from outside.
//!   A kind on a table of four units is written as in `wrapper/4`, one of `stores` with the number of its unit's size, as
//!   in `wrapper@2`.

mod scene;
mod shown;
mod side;
mod stores;
mod time;

use ordinary::device::Device;
use ordinary::record::Record;
use ordinary::scsi::code;
use ordinary::unit::Unit;
use scene::{scenes, Scene};
use side::{play, Idle, Seat, Side};
use std::hint::black_box;
use std::process::ExitCode;
use stores::STORES;

const MOST_COUNTED: usize = 2000;
/// The most units.
const FOUR: usize = 4;

fn line(kind: &str, key: &str, name: &str, values: &[time::Quartiles]) {
    let values: Vec<String> = values.as_flattened().iter().map(|value| format!("{value:.2}")).collect();
    println!("{kind}\t{key}\t{name}\t{}", values.join("\t"));
}

fn times() {
    println!("sizes\t{}\t{}\t{}", size_of::<Device>(), size_of::<Record>(), size_of::<Unit>());
    for scene in scenes(1) {
        line("event", scene.key, &scene.name, &time::events(&scene));
    }
    for scene in scenes(FOUR) {
        line("event", &format!("{}/{FOUR}", scene.key), &scene.name, &time::events(&scene));
    }
    for (count, tail) in [(1, ""), (FOUR, ", 4 units")] {
        for (code, name) in [(code::READ, "Read(10) of 64 KiB"), (code::WRITE, "Write(10) of 64 KiB")] {
            line("rate", name, &format!("{name}{tail}"), &time::transfers(code, count));
        }
    }
    for (count, tail) in [(1, ""), (FOUR, ", 4 units")] {
        let (key, calls) = (count.to_string(), shown::CALLS.map(|call| format!("{call}{tail}")).join("; "));
        line("shown", &key, &calls, &shown::events(&shown::scenes(count)));
        line("shown-rate", &key, &calls, &shown::transfers(count));
    }
    let [small, large, end] = STORES.map(stores::scenes);
    for ((small, large), end) in small.into_iter().zip(large).zip(end) {
        line("store", small.key, &small.name, &time::by_turns(&[&small, &large, &end]));
    }
}

fn find(key: &str) -> Option<Scene> {
    let usual = |count| scenes(count).into_iter().chain(shown::scenes(count)).collect();
    let (key, scenes): (_, Vec<_>) = match (key.split_once('@'), key.split_once('/')) {
        (Some((key, store)), _) => (key, stores::scenes(*STORES.get(store.parse::<usize>().ok()?)?)),
        (_, Some((key, "4"))) => (key, usual(FOUR)),
        _ => (key, usual(1)),
    };
    scenes.into_iter().find(|scene| scene.key == key)
}

/// The devices are prepared for the longest run, so that runs differ by their events alone.
fn count<S: Side>(scene: &Scene, events: usize) {
    let (mut medium, mut buffer) = (scene.medium(), [0; 64]);
    let mut seats = vec![Seat::<S>::new(&scene.before); MOST_COUNTED];
    play(&mut seats[..events], &scene.input, &mut medium, &mut buffer);
    black_box((&seats[..], medium, buffer));
}

fn main() -> ExitCode {
    let words: Vec<String> = std::env::args().skip(1).collect();
    let words: Vec<&str> = words.iter().map(String::as_str).collect();
    match words[..] {
        ["time"] => {
            times();
            return ExitCode::SUCCESS;
        }
        ["count", key, side, events] => {
            if let (Some(scene), Ok(events @ ..=MOST_COUNTED)) = (find(key), events.parse()) {
                match side {
                    "ordinary" => count::<Device>(&scene, events),
                    "proved" => count::<Record>(&scene, events),
                    _ => count::<Idle>(&scene, events),
                }
                return ExitCode::SUCCESS;
            }
        }
        _ => {}
    }
    eprintln!("figures time | figures count <kind> ordinary|proved|idle <events>");
    ExitCode::from(2)
}
