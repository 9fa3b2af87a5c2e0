//! Plays a bench recording on the linked device, and prints what document 01's "The bench recording" prints.

use crate::collector::{Answer, Collector, Event, Identity};
use crate::switch::{Position, Turn};
use std::io::{Read, Write};

const LONGEST: usize = 16_384;
const MOST_EVENTS: usize = 1_024;
/// The bench's device has one unit, of 64 blocks.
const UNITS: u8 = 1;
const BLOCKS: u32 = 64;

/// The recording's events, or None where it is malformed.
fn parse(bytes: &[u8]) -> Option<Vec<Event<'_>>> {
    let half = |at: usize| Some(u16::from_le_bytes([*bytes.get(at)?, *bytes.get(at + 1)?]) as usize);
    let count = half(0)?;
    if bytes.len() > LONGEST || count > MOST_EVENTS {
        return None;
    }
    let mut body = 2 + 4 * count;
    let mut events = vec![];
    for row in (2..body).step_by(4) {
        let length = half(row + 2)?;
        let part = bytes.get(body..body + length)?;
        if bytes[row + 1] != 0 {
            return None;
        }
        events.push(match (bytes[row], length) {
            (1, 0) => Event::Reset,
            (2, 8) => Event::Setup(part.try_into().ok()?),
            (3, 0..=64) => Event::Out(part),
            (4, 0) => Event::In,
            (5, 2) if part[1] < UNITS => {
                Event::Switch(Turn { position: Position::numbered(part[0])?, unit: part[1] })
            }
            _ => return None,
        });
        body += length;
    }
    (body == bytes.len()).then_some(events)
}

fn printed(answer: &Answer) -> String {
    match answer {
        Answer::Data(bytes) | Answer::Shown(bytes) => format!(
            "data {}{}",
            bytes.len(),
            bytes.iter().map(|byte| format!(" {byte:02X}")).collect::<String>()
        ),
        other => crate::log::answer_text(other),
    }
}

/// The bench's device: number 42, other identity numbers 0, 64 zero blocks.
pub fn play() -> std::io::Result<()> {
    let mut bytes = vec![];
    std::io::stdin().read_to_end(&mut bytes)?;
    let mut out = std::io::stdout().lock();
    let Some(events) = parse(&bytes) else {
        return writeln!(out, "refused 16");
    };
    let identity = Identity { number: 42, ..Identity::default() };
    let Ok(mut device) = Collector::make(identity, &[BLOCKS], vec![0; BLOCKS as usize * 512]) else {
        panic!("the bench's device is made");
    };
    writeln!(out, "events {}", events.len())?;
    for (at, event) in events.iter().enumerate() {
        writeln!(out, "{} {}", at + 1, printed(&device.event(event)))?;
    }
    Ok(())
}
