//! The media lent to the two devices, and their comparison after an event.

use crate::compare::compare_bytes;
use crate::event::Lent;
use crate::large_media::LargeMedia;

pub enum Media<'a> {
    /// Filled at random, and compared whole.
    Small {
        own: [Vec<u8>; 2],
        other: [Vec<u8>; 2],
    },
    Large(&'a mut LargeMedia),
}

impl Media<'_> {
    pub fn small(own: Vec<u8>) -> Media<'static> {
        Media::Small { own: [own.clone(), own], other: [vec![], vec![]] }
    }

    /// The ordinary device's own medium.
    pub fn own(&self) -> &[u8] {
        match self {
            Media::Small { own: [own, _], .. } => own,
            Media::Large(media) => media.own(),
        }
    }

    pub fn lend(&mut self, lent: Lent) -> [&mut [u8]; 2] {
        match (self, lent) {
            (Media::Small { own, .. }, Lent::Own) => own.each_mut().map(|own| &mut own[..]),
            (Media::Small { other, .. }, Lent::Other(length)) => {
                *other = [vec![0xA5; length], vec![0xA5; length]];
                other.each_mut().map(|other| &mut other[..])
            }
            (Media::Large(media), lent) => media.lend(lent),
        }
    }

    /// Compares what was lent.
    pub fn compare(&self, lent: Lent) -> Result<(), String> {
        match (self, lent) {
            (Media::Small { own: [a, b], .. }, Lent::Own) => compare_bytes("medium", a, b),
            (Media::Small { other: [a, b], .. }, Lent::Other(_)) => compare_bytes("medium", a, b),
            (Media::Large(media), _) => media.compare_watched(),
        }
    }
}
