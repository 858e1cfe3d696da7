//! Each text of each window is told by a word, or never told for a reason that stands beside it.
use super::{explain, key, Table, Word};
use std::collections::BTreeSet;
use words::{mixed, Rng, NEVER_TOLD, TOLD};

/// A row of cases, a case of it, one of its windows and the number of a text in it.
type Text = (String, usize, usize, usize);

/// All that the table asks for outside of nots.
fn asked_for() -> BTreeSet<Text> {
    let mut texts = BTreeSet::new();
    for letter in &Table::of(1).expect("there is edition 1").letters {
        for (case, number) in letter.cases.iter().zip(1..) {
            for (index, window) in case.telling.iter().enumerate() {
                texts.extend((1..=window.texts.len()).map(|text| (letter.key.clone(), number, index, text)));
            }
        }
    }
    texts
}

/// What the visits of a word tell, in order; a visit that tells no text is left out.
fn told(edition: u64, bytes: &[u8]) -> Vec<Text> {
    let table = Table::of(edition).expect("there is such an edition");
    let word = Word::new(bytes);
    let mut texts = Vec::new();
    for row in explain(edition, bytes, None, bytes.len()).expect("the word is taken") {
        let case = &table.cases(row.letter as u8)[row.case as usize - 1];
        let told = case.told(&word, row.place as usize);
        assert_eq!(told.map_or(0, |(_, text)| text), row.text as usize);
        texts.extend(told.map(|(window, text)| (key(row.letter), row.case as usize, window, text)));
    }
    texts
}

fn never() -> BTreeSet<Text> {
    let each = |(letter, case, window, texts, _): &(&str, usize, usize, &[usize], &str)| {
        texts.iter().map(|text| (letter.to_string(), *case, *window, *text)).collect::<Vec<_>>()
    };
    NEVER_TOLD.iter().flat_map(each).collect()
}

#[test]
fn each_word_has_its_text_told() {
    for &(letter, case, window, text, word) in TOLD {
        for edition in [1, 2] {
            let told = told(edition, word.as_bytes());
            assert!(told.contains(&(letter.to_string(), case, window, text)), "{word:?} tells {told:?}");
        }
    }
}

#[test]
fn each_text_is_told_or_never_told() {
    let by_words: BTreeSet<Text> =
        TOLD.iter().map(|&(key, case, window, text, _)| (key.to_string(), case, window, text)).collect();
    assert_eq!(by_words.len(), TOLD.len());
    assert_eq!(never().len(), NEVER_TOLD.iter().map(|(_, _, _, texts, _)| texts.len()).sum::<usize>());
    assert!(by_words.is_disjoint(&never()));
    assert_eq!(&by_words | &never(), asked_for());
    assert_eq!((by_words.len(), never().len()), (122, 105));
    assert!(NEVER_TOLD.iter().all(|(_, _, _, _, reason)| !reason.is_empty()));
}

#[test]
fn no_drawn_word_tells_what_is_never_told() {
    let never = never();
    for word in mixed(&mut Rng::new(6, 2), 100_000).iter().filter(|word| word.is_ascii()) {
        for edition in [1, 2] {
            let told = told(edition, word);
            assert!(told.iter().all(|text| !never.contains(text)), "{} tells {told:?}", word.escape_ascii());
        }
    }
}
