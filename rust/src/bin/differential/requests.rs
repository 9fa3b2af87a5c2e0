//! Control requests as a host makes them, and others near them.

use crate::random::Random;

pub type Setup = [u8; 8];

pub const SET_CONFIGURATION: Setup = [0x00, 0x09, 1, 0, 0, 0, 0, 0];
pub const SET_NO_CONFIGURATION: Setup = [0x00, 0x09, 0, 0, 0, 0, 0, 0];
pub const MASS_STORAGE_RESET: Setup = [0x21, 0xFF, 0, 0, 0, 0, 0, 0];
pub const GET_MAX_LUN: Setup = [0xA1, 0xFE, 0, 0, 0, 0, 1, 0];
pub const CLEAR_IN: Setup = [0x02, 0x01, 0, 0, 0x81, 0, 0, 0];
pub const CLEAR_OUT: Setup = [0x02, 0x01, 0, 0, 0x02, 0, 0, 0];

/// All that the device knows, with an endpoint, an address or a length where one is to be put in.
const KNOWN: [Setup; 16] = [
    [0x00, 0x05, 0x05, 0, 0, 0, 0, 0],
    SET_CONFIGURATION,
    SET_NO_CONFIGURATION,
    [0x80, 0x08, 0, 0, 0, 0, 1, 0],
    [0x80, 0x00, 0, 0, 0, 0, 2, 0],
    [0x81, 0x00, 0, 0, 0, 0, 2, 0],
    [0x82, 0x00, 0, 0, 0x81, 0, 2, 0],
    CLEAR_IN,
    [0x02, 0x03, 0, 0, 0x81, 0, 0, 0],
    MASS_STORAGE_RESET,
    GET_MAX_LUN,
    [0x80, 0x06, 0, 1, 0, 0, 18, 0],
    [0x80, 0x06, 0, 2, 0, 0, 32, 0],
    [0x80, 0x06, 0, 3, 0, 0, 4, 0],
    [0x80, 0x06, 1, 3, 9, 4, 255, 0],
    [0x80, 0x06, 3, 3, 9, 4, 255, 0],
];

/// A request that the device knows; whether it is allowed depends on the device's state.
pub fn known(random: &mut Random) -> Setup {
    let mut setup = random.pick(&KNOWN);
    match (setup[0], setup[1]) {
        (0x00, 0x05) => setup[2] = random.pick(&[0, 1, 5, 0x7E, 0x7F]),
        (0x82, _) | (0x02, _) => setup[4] = random.pick(&[0x81, 0x81, 0x02, 0x02, 0x00, 0x80]),
        (0x80, 0x06) => {
            if setup[3] == 3 && setup[2] != 0 {
                setup[2] = 1 + random.below(3) as u8;
            }
            if random.one_in(2) {
                let length =
                    random.pick(&[0, 1, 2, 8, 9, 17, 18, 19, 26, 31, 32, 33, 64, 65, 255, 256, 0xFFFF]);
                setup[6..].copy_from_slice(&u16::to_le_bytes(length));
            }
        }
        _ => {}
    }
    setup
}

/// A request near a known one, or none at all.
pub fn strange(random: &mut Random) -> Setup {
    let mut setup = known(random);
    match random.below(4) {
        0 => random.fill(&mut setup),
        1 => setup[random.below(8) as usize] = random.number() as u8,
        2 => setup[random.below(8) as usize] ^= 1 << random.below(8),
        _ => {
            setup[random.below(8) as usize] =
                random.pick(&[0, 1, 2, 3, 4, 0x0A, 0x0B, 0x7F, 0x80, 0x81, 0xFF])
        }
    }
    setup
}
