use crate::{counted, double_metaphone, edition2, Codes};
use std::cell::Cell;
use std::hint::black_box;

thread_local! {
    static VISITS: Cell<usize> = const { Cell::new(0) };
}

/// The counted copies call this once a visit.
pub(crate) fn count_visit() {
    VISITS.with(|visits| visits.set(visits.get() + 1));
}

fn with_visits(walk: impl FnOnce() -> Codes) -> (Codes, usize) {
    VISITS.with(|visits| visits.set(0));
    let codes = walk();
    (codes, VISITS.with(Cell::get))
}

/// The Rust text is at hand.
#[derive(Clone, Copy)]
pub struct Oracle(());

impl Oracle {
    /// The oracle, or `None` where it was built without the text.
    pub fn at_hand() -> Option<Self> {
        Some(Oracle(()))
    }

    /// Both codes by the unchanged text.
    pub fn codes(&self, word: &str, limit: Option<usize>) -> Codes {
        let result = double_metaphone::DoubleMetaphone::new(limit).double_metaphone(word);
        Codes { primary: result.primary(), alternate: result.alternate() }
    }

    /// Both codes and the visits by the counted copy.
    pub fn counted(&self, word: &str, limit: Option<usize>) -> (Codes, usize) {
        with_visits(|| {
            let result = counted::DoubleMetaphone::new(limit).double_metaphone(word);
            Codes { primary: result.primary(), alternate: result.alternate() }
        })
    }

    /// The same by the counted copy that reads the first test of condition_ch1 as edition 2 does.
    pub fn edition2(&self, word: &str, limit: Option<usize>) -> (Codes, usize) {
        with_visits(|| {
            let result = edition2::DoubleMetaphone::new(limit).double_metaphone(word);
            Codes { primary: result.primary(), alternate: result.alternate() }
        })
    }

    /// The equality question by the unchanged text.
    pub fn equal(&self, first: &str, second: &str, limit: Option<usize>, alternate: bool) -> bool {
        double_metaphone::DoubleMetaphone::new(limit).is_double_metaphone_equal(first, second, alternate)
    }

    /// Encodes every word by the unchanged text, for its time alone.
    pub fn pass(&self, words: &[String], limit: Option<usize>) {
        let encoder = double_metaphone::DoubleMetaphone::new(limit);
        for word in words {
            black_box(encoder.double_metaphone(black_box(word)));
        }
    }
}
