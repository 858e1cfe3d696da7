//! What a drawn word is put to the port with; the words themselves are those of the crate `words`.
use crate::trial::Rooms;
use oracle::LARGEST_LIMIT;
pub use words::{alike, word, Kind};
use words::{Rng, UNKNOWN_EDITIONS};

/// None, or a limit: small ones, those about the need, the largest that the Rust is asked for, and any number.
pub fn limit(rng: &mut Rng, length: usize) -> Option<u64> {
    match rng.below(12) {
        0..=3 => None,
        4..=6 => Some(rng.below(8) as u64),
        7..=8 => Some(rng.below(2 * length + 2) as u64),
        9 => Some(LARGEST_LIMIT as u64),
        10 => Some(rng.below(LARGEST_LIMIT + 1) as u64),
        _ => Some(rng.number()),
    }
}

/// A number that is no edition.
pub fn unknown(rng: &mut Rng) -> u64 {
    match rng.below(UNKNOWN_EDITIONS.len() + 1) {
        at if at < UNKNOWN_EDITIONS.len() => UNKNOWN_EDITIONS[at],
        _ => rng.number().max(3),
    }
}

/// Mostly enough room.
pub fn rooms(rng: &mut Rng) -> Rooms {
    match rng.below(16) {
        0 => Rooms::PrimaryShort,
        1 => Rooms::AlternateShort,
        2 => Rooms::BothShort,
        3 => Rooms::Nothing,
        4..=8 => Rooms::Exact,
        _ => Rooms::Spare,
    }
}
