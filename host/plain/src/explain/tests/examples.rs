//! The examples take the cases that they stand for.
use super::{key, listed};
use crate::explain::table::Table;
use words::EXAMPLES;

/// The ways through the Rust's branches that no word takes.
const NO_WORD: [(&str, usize); 5] = [("J", 5), ("J", 7), ("R", 1), ("S", 15), ("X", 4)];

#[test]
fn each_example_takes_its_case() {
    for &(letter, case, word) in EXAMPLES {
        let takes = listed(1, word).iter().any(|row| key(row.letter) == letter && row.case as usize == case);
        assert!(takes, "{word:?} takes {letter}{case}: {:?}", listed(1, word));
    }
}

#[test]
fn each_case_that_a_word_takes_has_one_example() {
    let table = Table::of(1).expect("there is edition 1");
    let cases = table.letters.iter().flat_map(|letter| (1..=letter.cases.len()).map(|case| (letter.key.as_str(), case)));
    let expected: Vec<_> = cases.filter(|case| !NO_WORD.contains(case)).collect();
    assert_eq!(expected.len(), 114);
    assert_eq!(EXAMPLES.iter().map(|&(letter, case, _)| (letter, case)).collect::<Vec<_>>(), expected);
}
