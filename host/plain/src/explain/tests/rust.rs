//! Beside the unchanged Rust and, for edition 2, the copy of it that reads one test otherwise: the gains of the rows make its codes, and
//! there are as many rows as it made visits. So each case adds and passes over what it should wherever it speaks.
use super::{codes, explain, under, Refused};
use oracle::{Codes, Oracle, NOT_AT_HAND};
use words::{mixed, word, Kind, Rng};

const LIMITS: [Option<u64>; 5] = [None, Some(0), Some(1), Some(4), Some(6)];

/// Words of up to 23 bytes.
const SHORT_WORDS: usize = 300_000;

/// What the Rust says of a word by an edition.
fn by_the_rust(oracle: Oracle, edition: u64, word: &str, limit: Option<u64>) -> (Codes, usize) {
    let limit = limit.map(|limit| limit as usize);
    if edition == 2 {
        return oracle.edition2(word, limit);
    }
    let (codes, visits) = oracle.counted(word, limit);
    assert_eq!(codes, oracle.codes(word, limit), "the counted copy of the Rust");
    (codes, visits)
}

/// Asserts that both agree on a word by both editions at every limit; a word that is not ASCII has none to agree with.
fn agrees(oracle: Oracle, bytes: &[u8]) {
    let Some(word) = std::str::from_utf8(bytes).ok().filter(|word| word.is_ascii()) else {
        let place = bytes.iter().position(|byte| *byte >= 128).expect("it is not ASCII");
        assert_eq!(explain(1, bytes, None, bytes.len()), Err(Refused { number: 2, place }));
        return;
    };
    for edition in [1, 2] {
        for limit in LIMITS {
            let (expected, visits) = by_the_rust(oracle, edition, word, limit);
            let rows = under(edition, bytes, limit);
            let (primary, alternate) = codes(&rows, limit);
            let got = (&primary[..], &alternate[..], rows.len());
            let expected = (expected.primary.as_bytes(), expected.alternate.as_bytes(), visits);
            assert_eq!(got, expected, "{word:?} by edition {edition} under {limit:?}");
        }
    }
}

fn at_hand() -> Option<Oracle> {
    let oracle = Oracle::at_hand();
    if oracle.is_none() {
        println!("explain: {NOT_AT_HAND}");
    }
    oracle
}

#[test]
fn short_words_agree() {
    let Some(oracle) = at_hand() else { return };
    mixed(&mut Rng::new(6, 0), SHORT_WORDS).iter().for_each(|word| agrees(oracle, word));
}

#[test]
fn every_word_of_up_to_three_letters_agrees() {
    let Some(oracle) = at_hand() else { return };
    let letters = || (b'A'..=b'Z').chain([b' ', b'-']);
    for first in letters() {
        agrees(oracle, &[first]);
        for second in letters() {
            agrees(oracle, &[first, second]);
            letters().for_each(|third| agrees(oracle, &[first, second, third]));
        }
    }
}

#[test]
fn words_of_every_length_agree() {
    let Some(oracle) = at_hand() else { return };
    let rng = &mut Rng::new(6, 1);
    for length in (0..64).chain((64..1016).step_by(7)).chain(1016..=crate::NAME_LIMIT) {
        for kind in [Kind::Fragments, Kind::Longest, Kind::Van] {
            agrees(oracle, &word(rng, kind, length));
        }
    }
}
