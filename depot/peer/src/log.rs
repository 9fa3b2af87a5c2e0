//! The log of events: one line for each thing that the bus brought, and for each turn of a switch, with its time and the device's answer.
//! An event is written as the repository's recordings write it (tools/script.py), so that a run can become a recording; a turn of a
//! switch names its unit.

use crate::collector::{Answer, Event, Identity};
use crate::switch::Turn;
use std::fs::File;
use std::io::{BufWriter, Write};
use std::time::{SystemTime, UNIX_EPOCH};

pub struct Log {
    file: BufWriter<File>,
    start: f64,
}

fn now() -> f64 {
    SystemTime::now().duration_since(UNIX_EPOCH).unwrap().as_secs_f64()
}

fn hex(bytes: &[u8]) -> String {
    bytes.iter().map(|byte| format!(" {byte:02X}")).collect()
}

pub fn event_text(event: &Event) -> String {
    match event {
        Event::Reset => "reset".into(),
        Event::Setup(bytes) => format!("setup{}", hex(bytes)),
        Event::Out(packet) => format!("out{}", hex(packet)),
        Event::In => "in".into(),
        Event::Switch(Turn { position, unit }) => format!("switch {} {unit}", position.name()),
    }
}

pub fn answer_text(answer: &Answer) -> String {
    match answer {
        Answer::Data(bytes) if bytes.is_empty() => "data none".into(),
        Answer::Data(bytes) => format!("data{}", hex(bytes)),
        Answer::Shown(bytes) => format!("shown{}", hex(bytes)),
        Answer::Ack => "ack".into(),
        Answer::Nak => "nak".into(),
        Answer::Stall => "stall".into(),
        Answer::Silent => "silent".into(),
        Answer::Refused { number, count } => format!("refused {number} {count}"),
    }
}

impl Log {
    /// `start` is the run's zero of time, in seconds of the clock.
    pub fn new(path: &str, start: f64) -> std::io::Result<Self> {
        Ok(Log { file: BufWriter::new(File::create(path)?), start })
    }

    fn line(&mut self, text: &str) {
        let at = now() - self.start;
        writeln!(self.file, "{at:.6} {text}").expect("the log is written");
    }

    pub fn event(&mut self, event: &Event, answer: &Answer) {
        self.line(&format!("{} -> {}", event_text(event), answer_text(answer)));
    }

    pub fn plugged(&mut self, identity: Identity, sizes: &[u32]) {
        let Identity { number, vendor, product, release } = identity;
        let units: Vec<String> = sizes.iter().map(u32::to_string).collect();
        let units = units.join(",");
        self.line(&format!("# plugged number={number} vendor={vendor:04X} product={product:04X} release={release:04X} units={units}"));
    }

    /// What happened beside the device's events: unplugged, a transfer cancelled.
    pub fn note(&mut self, text: &str) {
        self.line(&format!("# {text}"));
    }

    pub fn flush(&mut self) {
        self.file.flush().expect("the log is written");
    }
}
