//! The outside witness of the comparison: src/double_metaphone.rs of rphonetic 4.0.0, compiled as it stands, a copy of it that
//! counts its visits, and a copy of that one with the first test of condition_ch1 read with "VAN " and "VON ". Edition 1 equals the
//! text; edition 2, which no crate has, is held against the last copy. The text is not part of this repository; where it was not at
//! hand at build time, [`Oracle::at_hand`] answers `None` and every tool says that it did not compare.

include!(concat!(env!("OUT_DIR"), "/modules.rs"));

#[cfg(rphonetic)]
mod text;
#[cfg(rphonetic)]
pub use text::Oracle;

#[cfg(not(rphonetic))]
mod absent;
#[cfg(not(rphonetic))]
pub use absent::Oracle;

/// What a tool says, behind its own name, where there is no oracle.
pub const NOT_AT_HAND: &str =
    "the Rust text is not at hand (in RPHONETIC_SRC, or in shared/docs/src/src beside the repository)";

/// The largest limit that is put to the Rust: it reserves memory for the whole limit.
pub const LARGEST_LIMIT: usize = 65_536;

/// The trait that the text implements; its crate declares it in a file that is not taken.
pub trait Encoder {
    fn encode(&self, value: &str) -> String;
}

/// Both codes of a word.
#[derive(Debug, PartialEq, Eq)]
pub struct Codes {
    pub primary: String,
    pub alternate: String,
}
