//! A host that mostly does the sensible next thing for the device's state, and now and then something else.

use crate::ask::{ask, buffer, reply, show, wants_reply};
use crate::commands::wrapper;
use crate::event::{Event, Lent, Step};
use crate::large_media::LONGEST;
use crate::lent_reply::LentReply;
use crate::own::{Own, LIMIT, SMALL};
use crate::random::Random;
use crate::requests::{self, Setup};
use crate::state::State;
use crate::{switch, tables};
use ordinary::device::{Identity, BLOCK, MAX_NUMBER, PACKET};
use ordinary::record::{stage, Record};

/// The next event for a device in this state, now and then lent another table than its own; a making more often.
pub fn step(random: &mut Random, state: &State, own: &Own) -> Step {
    let event = next(random, state, own);
    let other = random.one_in(if matches!(event, Event::Make { .. }) { 4 } else { 50 });
    Step { other: other.then(|| tables::changed(random, &state.units)), event }
}

/// The next event for a device in this state.
pub fn next(random: &mut Random, state: &State, own: &Own) -> Event {
    let unmade = state.record == Record::ZERO || state.own_unit().is_none();
    if unmade && random.one_in(3) {
        return Event::Make { identity: identity(random), medium: Lent::Own };
    }
    if switch::is_moved(random, state) {
        return switch::moved(random, state);
    }
    if is_cut(random, state) || (state.any_closed() || state.senses() > 1) && random.one_in(60) {
        return reset(random);
    }
    if wants_reply(random, state) {
        return reply(random);
    }
    if random.one_in(9) {
        return odd(random, state, own);
    }
    if !state.configured() {
        return enumerate(random, state, own);
    }
    if state.locked() {
        return recover(random, state, own);
    }
    proceed(random, state, own)
}

pub fn control(random: &mut Random, setup: Setup) -> Event {
    Event::Control { setup: setup.to_vec(), buffer: buffer(random) }
}

pub fn send(packet: Vec<u8>) -> Event {
    Event::BulkOut { medium: Lent::Own, packet }
}

/// A wrapper where one is due, else data.
pub fn packet(random: &mut Random, state: &State, own: &Own) -> Vec<u8> {
    if state.stage != stage::DATA_OUT {
        return wrapper(random, state, own);
    }
    let length = if random.one_in(60) { random.below(PACKET as u64 + 1) } else { PACKET as u64 };
    random.bytes(length)
}

fn enumerate(random: &mut Random, state: &State, own: &Own) -> Event {
    match random.below(10) {
        0..=3 => control(random, requests::SET_CONFIGURATION),
        4..=7 => {
            let setup = requests::known(random);
            control(random, setup)
        }
        8 => send(packet(random, state, own)),
        _ => ask(random, state),
    }
}

/// Out of the lock: mostly Mass Storage Reset; a Clear Feature alone must not do.
fn recover(random: &mut Random, state: &State, own: &Own) -> Event {
    match random.below(8) {
        0..=2 => control(random, requests::MASS_STORAGE_RESET),
        3 => control(random, requests::CLEAR_IN),
        4 => control(random, requests::CLEAR_OUT),
        5 => send(packet(random, state, own)),
        6 => ask(random, state),
        _ => {
            let setup = requests::known(random);
            control(random, setup)
        }
    }
}

/// The next step of a command. A stall is mostly met before the halt is cleared.
fn proceed(random: &mut Random, state: &State, own: &Own) -> Event {
    let met = !random.one_in(4);
    match state.stage {
        stage::READY | stage::DATA_OUT if state.halt_out() && met => control(random, requests::CLEAR_OUT),
        stage::READY | stage::DATA_OUT => send(packet(random, state, own)),
        _ if state.halt_in() && met => control(random, requests::CLEAR_IN),
        _ => ask(random, state),
    }
}

/// Whether a command is cut in the middle of its data (document 02, A13): the rarer the state, the more often.
fn is_cut(random: &mut Random, state: &State) -> bool {
    let moved = state.residue < state.announced;
    match state.stage {
        stage::DATA_OUT if moved => random.one_in(10),
        stage::DATA_OUT => state.value > 0 && random.one_in(60),
        stage::DATA_IN => moved && random.one_in(60),
        stage::READY => false,
        _ => !state.status_due() && random.one_in(25),
    }
}

/// Whatever drops the command. It comes more often while a write switch is closed, for none but a making opens it, and
/// while several units hold a sense, for all of them are cleared.
fn reset(random: &mut Random) -> Event {
    match random.below(5) {
        0 => Event::Make { identity: identity(random), medium: Lent::Own },
        1 => Event::BusReset,
        2 => control(random, requests::MASS_STORAGE_RESET),
        3 => control(random, requests::SET_CONFIGURATION),
        _ => control(random, requests::SET_NO_CONFIGURATION),
    }
}

/// Something out of turn, or an input that is refused.
fn odd(random: &mut Random, state: &State, own: &Own) -> Event {
    match random.below(22) {
        0 => Event::BusReset,
        1 => making(random, own),
        2..=5 => {
            let setup = requests::known(random);
            control(random, setup)
        }
        6..=9 => {
            let setup = requests::strange(random);
            control(random, setup)
        }
        10 | 11 => ask(random, state),
        12 => show(LentReply::other(random)),
        13 => send(wrapper(random, state, own)),
        14 => send(random.bytes(64)),
        15 => {
            let length = random.below(65);
            send(random.bytes(length))
        }
        _ => refused(random, state, own),
    }
}

/// An event with one or more inputs that are refused, so that the order of the checks shows.
fn refused(random: &mut Random, state: &State, own: &Own) -> Event {
    let medium = if random.one_in(2) { wrong_medium(random, own) } else { Lent::Own };
    let mut buffer = buffer(random);
    if random.one_in(2) {
        let short = random.below(64) as usize;
        buffer.length = random.pick(&[0, 1, 18, 32, 62, 63, short]);
    }
    match random.below(5) {
        0 => Event::BulkIn { medium, buffer },
        1 => Event::Show { medium, reply: LentReply::some(random) },
        2 => Event::Reply { buffer },
        3 => {
            let mut packet = packet(random, state, own);
            if random.one_in(2) {
                packet.resize(PACKET + 1 + random.below(80) as usize, 0x5A);
            }
            Event::BulkOut { medium, packet }
        }
        _ => {
            let mut setup = requests::known(random).to_vec();
            if random.one_in(2) {
                setup.resize(random.pick(&[0, 1, 6, 7, 9, 10, 16, 64]), 0);
            }
            Event::Control { setup, buffer }
        }
    }
}

/// A medium that is mostly not of the own one's size: that of one unit, all but the last, and others. The long ones are
/// lent with a large medium only.
fn wrong_medium(random: &mut Random, own: &Own) -> Lent {
    let bytes = own.bytes();
    Lent::Other(match random.below(40) {
        0..=23 if own.is_large() => long(random, own.blocks()),
        0 => bytes + SMALL as usize * BLOCK,
        1..=4 => 0,
        5..=9 => own.sizes[random.below(own.sizes.len() as u64) as usize] as usize * BLOCK,
        10..=15 => bytes - own.sizes[own.sizes.len() - 1] as usize * BLOCK,
        16..=21 => bytes + random.pick(&[1, 256, 511]),
        22..=29 => bytes - random.pick(&[1, 256, 511, 512, 512]),
        _ => bytes + BLOCK * (1 + random.below(3) as usize),
    })
}

/// Sizes at the limit, over it by one block, and apart from the own one by a power of two of blocks, which a device
/// with too few bits for a size cannot tell from it.
fn long(random: &mut Random, blocks: u32) -> usize {
    let power = 1 << random.pick(&[12, 16, 16, 19]);
    let others = [blocks + power, blocks.saturating_sub(power), blocks % power];
    let blocks = match random.below(6) {
        0 => LIMIT,
        1 | 2 => LIMIT + 1,
        _ => random.pick(&others),
    };
    LONGEST.min(blocks as usize * BLOCK)
}

pub fn identity(random: &mut Random) -> Identity {
    let number = match random.below(5) {
        0 => random.pick(&[0, 42, MAX_NUMBER]),
        1 => random.below(1_000_000),
        2 => 10_u64.pow(random.below(12) as u32) - random.below(2),
        _ => random.below(MAX_NUMBER + 1),
    };
    Identity {
        number,
        vendor: random.number() as u16,
        product: random.number() as u16,
        release: random.number() as u16,
    }
}

/// A making out of turn: with a good or a bad medium, with a good number or one too large.
fn making(random: &mut Random, own: &Own) -> Event {
    let mut identity = identity(random);
    if random.one_in(2) {
        let large = random.number() | 1 << 40;
        identity.number = random.pick(&[MAX_NUMBER + 1, u64::MAX, large]);
    }
    let medium = match random.below(3) {
        0 => Lent::Own,
        _ => wrong_medium(random, own),
    };
    Event::Make { identity, medium }
}
