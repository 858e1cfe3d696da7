//! Makes the stored answers that the program `replay` is held to, for words drawn from a fixed seed, so that two runs give the same
//! bytes. The codes are the unchanged Rust's. The visits are counted by its copy with one line more, which must give the same codes.
//!
//! A line is: limit (`-` for none), tab, visits, tab, primary code, tab, alternate code, tab, word. The word stands last and runs to
//! the line's end, so it may hold any ASCII byte but 10, a tab too; a code holds capitals, `0` and spaces, and so neither tab nor byte 10.
//!
//!     cargo run --offline --release -p stored > ../crates/replay/stdin
use oracle::{Oracle, NOT_AT_HAND};
use std::io::{self, BufWriter, Write};
use std::process::exit;
use words::{Rng, FRAGMENTS};

const WORDS: usize = 12_000;
const LONG_WORDS: usize = 160;
const WORD_LIMIT: usize = 1024;

/// Bytes that no rule asks for, drawn beside the fragments of the rules.
const ODD: &[&str] = &["\0", "\t", "\u{7f}"];

/// The names of the rules' own examples.
#[rustfmt::skip]
const NAMES: &[&str] = &[
    "", "jumped", "GN", "XX", "KXZ", "Mac Gregor", "Rogier", "Villa", "artois", "Van Chi", "Saj", "focaccia", "San Jacinto", "Jose",
    "Bajador", "Wasserman", "Filipowicz", "Tichner", "Hugh", "McLaughlin", "Tagliaro", "Edgar", "Edge", "cabrillo", "campbell",
    "Raspberry", "isle", "Carlisle", "sugar", "smith", "snider", "Schlesinger", "Schermerhorn", "Thomas", "Thumb", "Arnow", "Witz",
    "breaux", "zhao", "\x0b jumped\r", "\x1cjumped", "  Villa\t", " ", "\r",
];

/// Bytes at an end: blanks, which are trimmed, and their neighbours, which are not.
const ENDS: &[u8] = b"\x09\x0b\x0c\x0d \x08\x0e\x1c\x1f";

fn letters(rng: &mut Rng, length: usize) -> String {
    (0..length).map(|_| (b"Aa"[rng.below(2)] + rng.below(26) as u8) as char).collect()
}

fn fragments(rng: &mut Rng, length: usize) -> String {
    let mut word = String::new();
    while word.len() < length {
        let at = rng.below(FRAGMENTS.len() + ODD.len());
        let fragment = if at < FRAGMENTS.len() { FRAGMENTS[at] } else { ODD[at - FRAGMENTS.len()] };
        if rng.below(2) == 0 {
            word.push_str(fragment);
        } else {
            word.push_str(&fragment.to_ascii_lowercase());
        }
    }
    word.truncate(length);
    word
}

fn with_ends(rng: &mut Rng, word: String) -> String {
    let mut end = || ENDS[rng.below(ENDS.len())] as char;
    format!("{}{}{}{}", end(), word, end(), end())
}

/// K, then X and Z in turn: the alternate code reaches 2t - 1 bytes.
fn longest_code(length: usize) -> String {
    (0..length).map(|at| if at == 0 { 'K' } else { ['Z', 'X'][at % 2] }).collect()
}

/// The names, every letter and every pair of letters, then words that are drawn, the long ones last.
fn words(rng: &mut Rng) -> Vec<String> {
    let mut words: Vec<String> = NAMES.iter().map(|name| name.to_string()).collect();
    for one in b'A'..=b'Z' {
        words.push((one as char).to_string());
        words.extend((b'A'..=b'Z').map(|two| format!("{}{}", one as char, two as char)));
    }
    while words.len() < WORDS - LONG_WORDS {
        let length = 3 + rng.below(14);
        let word = match rng.below(4) {
            0 => letters(rng, length),
            _ => fragments(rng, length),
        };
        words.push(if rng.below(12) == 0 { with_ends(rng, word) } else { word });
    }
    words.extend([longest_code(64), longest_code(WORD_LIMIT), "\r".repeat(WORD_LIMIT), "c".repeat(WORD_LIMIT)]);
    while words.len() < WORDS {
        let length = match rng.below(8) {
            0 => WORD_LIMIT - rng.below(3),
            _ => 40 + rng.below(WORD_LIMIT - 40),
        };
        words.push(fragments(rng, length));
    }
    words
}

/// Each word twice: with no limit, and under a limit of 0 to 6 in turn.
fn main() -> io::Result<()> {
    let Some(oracle) = Oracle::at_hand() else {
        eprintln!("stored: {NOT_AT_HAND}");
        exit(1);
    };
    let mut rng = Rng::plain(0x5113_3e7c);
    let mut out = BufWriter::new(io::stdout().lock());
    for (at, word) in words(&mut rng).iter().enumerate() {
        assert!(word.len() <= WORD_LIMIT && word.bytes().all(|byte| byte < 128 && byte != b'\n'));
        for limit in [None, Some(at % 7)] {
            let codes = oracle.codes(word, limit);
            let (counted, visits) = oracle.counted(word, limit);
            assert_eq!(counted, codes);
            let limit = limit.map_or("-".to_string(), |limit| limit.to_string());
            writeln!(out, "{limit}\t{visits}\t{}\t{}\t{word}", codes.primary, codes.alternate)?;
        }
    }
    Ok(())
}
