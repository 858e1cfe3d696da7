//! Words for the comparison, the benchmark and the stored answers, the same from the same seed.
mod draw;
mod editions;
mod examples;
mod fragments;
mod gauges;
mod known;
mod lists;
mod names;
mod rng;
mod told;

pub use draw::{alike, mixed, word, Kind, SHORT};
pub use editions::UNKNOWN_EDITIONS;
pub use examples::EXAMPLES;
pub use fragments::FRAGMENTS;
pub use gauges::{gauges, respelt, sized};
pub use known::KNOWN;
pub use lists::{lists, LIMITS};
pub use names::{ACCENTED, NAMES};
pub use rng::Rng;
pub use told::{FIRST_TOLD, NEVER_TOLD, TOLD};
