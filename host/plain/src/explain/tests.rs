//! The evaluator on words whose listings are known, and beside the unchanged Rust.
mod examples;
mod known;
mod rust;
mod table;
mod told;

use super::*;

/// The row of cases that a told letter belongs to, as the table names it.
fn key(letter: u32) -> String {
    match u8::try_from(letter).expect("a letter is a byte") {
        byte if word::is_vowel(byte) => "A".to_string(),
        byte @ b'A'..=b'Z' => char::from(byte).to_string(),
        _ => "rest".to_string(),
    }
}

/// The listing under a limit, with room for every row.
fn under(edition: u64, word: &[u8], limit: Option<u64>) -> Vec<Row> {
    explain(edition, word, limit, word.len()).expect("the word is taken")
}

/// The listing under no limit.
fn listed(edition: u64, word: &str) -> Vec<Row> {
    under(edition, word.as_bytes(), None)
}
