//! The smallest input that still shows a difference.
use crate::port::Port;
use crate::trial::{Checker, Trial};

/// What a difference looks like on its smallest input.
pub fn report<P: Port>(checker: &mut Checker<P>, trial: Trial) -> String {
    match trial {
        Trial::Encode { word, limit, rooms, unknown } => {
            let word = smallest(word, |word| checker.check(Trial::Encode { word, limit, rooms, unknown }).is_err());
            shown(checker, Trial::Encode { word: &word, limit, rooms, unknown })
        }
        Trial::Equal { first, second, limit, alternate } => {
            let first = smallest(first, |first| checker.check(Trial::Equal { first, second, limit, alternate }).is_err());
            let second =
                smallest(second, |second| checker.check(Trial::Equal { first: &first, second, limit, alternate }).is_err());
            shown(checker, Trial::Equal { first: &first, second: &second, limit, alternate })
        }
    }
}

fn shown<P: Port>(checker: &mut Checker<P>, trial: Trial) -> String {
    match checker.check(trial) {
        Err(difference) => format!("{trial}\n{difference}"),
        Ok(()) => format!("{trial}\n  differed once and not again"),
    }
}

/// The word with as many bytes left out as can be, in large pieces first, so that leaving out any one more ends the difference.
fn smallest(word: &[u8], mut differs: impl FnMut(&[u8]) -> bool) -> Vec<u8> {
    let mut word = word.to_vec();
    let mut piece = word.len();
    while piece > 0 {
        let before = word.len();
        let mut at = 0;
        while at < word.len() {
            let mut fewer = word.clone();
            fewer.drain(at..(at + piece).min(word.len()));
            if differs(&fewer) {
                word = fewer;
            } else {
                at += piece;
            }
        }
        if word.len() == before || piece > 1 {
            piece /= 2;
        }
    }
    word
}

#[cfg(test)]
mod tests {
    use super::smallest;

    #[test]
    fn what_is_left_is_needed() {
        let differs = |word: &[u8]| word.iter().filter(|byte| **byte == b'X').count() >= 2;
        assert_eq!(smallest(b"aaXbbbXccXd", differs), b"XX");
        assert_eq!(smallest(b"abc", |_| true), b"");
    }
}
