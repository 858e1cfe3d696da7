use crate::Codes;

/// There is none: the Rust text was not at hand when this was built.
#[derive(Clone, Copy)]
pub enum Oracle {}

impl Oracle {
    pub fn at_hand() -> Option<Self> {
        None
    }

    pub fn codes(&self, _word: &str, _limit: Option<usize>) -> Codes {
        match *self {}
    }

    pub fn counted(&self, _word: &str, _limit: Option<usize>) -> (Codes, usize) {
        match *self {}
    }

    pub fn edition2(&self, _word: &str, _limit: Option<usize>) -> (Codes, usize) {
        match *self {}
    }

    pub fn equal(&self, _first: &str, _second: &str, _limit: Option<usize>, _alternate: bool) -> bool {
        match *self {}
    }

    pub fn pass(&self, _words: &[String], _limit: Option<usize>) {
        match *self {}
    }
}
