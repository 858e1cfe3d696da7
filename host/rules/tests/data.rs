//! The wrapper's data and its two questions, held against the table that was read: host/simmerquilt itself takes minutes to build.
#[allow(dead_code)]
#[path = "../../simmerquilt/src/cases.rs"]
mod cases;
#[allow(dead_code)]
#[path = "../../simmerquilt/src/rules.rs"]
mod rules;

use ::rules::visits::visits;
use ::rules::{files, read, words as lines, Spot, Table};
use std::path::Path;
use words::{EXAMPLES, FRAGMENTS, NAMES};

fn table() -> Table {
    read(&files(&Path::new(env!("CARGO_MANIFEST_DIR")).join("../.."))).unwrap_or_else(|fault| panic!("{fault}"))
}

fn spot(spot: &rules::Spot) -> Spot {
    match *spot {
        rules::Spot::Ahead(k) => Spot::Ahead(k),
        rules::Spot::Back(k) => Spot::Back(k),
        rules::Spot::Front(k) => Spot::Front(k),
        rules::Spot::Rear(k) => Spot::Rear(k),
    }
}

#[test]
fn the_data_are_the_table() {
    let table = table();
    let lines = lines::lines(&table).unwrap_or_else(|fault| panic!("{fault}"));
    assert_eq!(cases::LETTERS.len(), table.rows.len());
    for ((row, lines), own) in table.rows.iter().zip(lines).zip(cases::LETTERS) {
        assert_eq!((own.keys, own.cases.len()), (row.keys.as_str(), row.cases.len()));
        for ((case, line), own) in row.cases.iter().zip(lines).zip(own.cases) {
            assert_eq!(own.when, line.as_str());
            let windows = case.when.windows();
            assert_eq!(own.windows.len(), windows.len(), "{line}");
            for (own, window) in own.windows.iter().zip(windows) {
                assert_eq!((spot(&own.spot), own.width), (window.spot, window.width), "{line}");
                assert!(own.texts.iter().eq(&window.texts), "{line}");
            }
        }
    }
}

#[test]
fn a_case_is_found_by_its_letter_and_number() {
    assert_eq!(rules::case(b'B', 1).unwrap().when, "the next letter is B");
    assert_eq!(rules::case(b'b', 2).unwrap().when, "otherwise");
    assert_eq!(rules::case(b'Y', 1).unwrap().when, "this is the first letter");
    assert_eq!(rules::case(b'J', 8).unwrap().when, "this is the last letter");
    for byte in [b'-', b' ', b'7', 0, 127, 199] {
        assert_eq!(rules::case(byte, 1).unwrap().when, "always");
        assert!(rules::case(byte, 2).is_none());
    }
    for (letter, number) in [(b'B', 0), (b'B', 3), (b'C', 19), (b'A', usize::MAX)] {
        assert!(rules::case(letter, number).is_none());
    }
}

#[test]
fn texts_by_hand() {
    let told = [
        ("Mac Gregor", 2, 16, 3, " G"),
        ("Ager", 1, 12, 11, "ER"),
        ("Allea", 1, 1, 3, "ALLE"),
        ("Mmer", 0, 1, 1, "ER"),
        ("Schaw", 4, 4, 1, "SCH"),
        ("Macher", 2, 1, 2, "MACHER"),
    ];
    for (word, place, number, text, wanted) in told {
        let case = rules::case(word.as_bytes()[place], number).unwrap();
        assert_eq!(rules::matched(case, word.as_bytes(), place, text), Some(wanted), "{word}");
    }
    // No word tells a text before its end, but the data has such windows.
    let illo = rules::case(b'L', 1).unwrap();
    assert_eq!(rules::matched(illo, b"Villas", 2, 1), Some("AS"));
    assert_eq!(rules::matched(illo, b"s", 0, 1), None);
}

#[test]
fn no_text_is_made_up() {
    let chia = rules::case(b'C', 1).unwrap();
    assert_eq!(rules::matched(chia, b"Bach", 2, 0), None);
    for (place, text) in [(2, 1), (2, 2), (2, 3), (0, 1), (9, 1), (usize::MAX, 1), (2, usize::MAX)] {
        assert_eq!(rules::matched(chia, b"Bach", place, text), None);
    }
    // Edition 1 compares four letters with three.
    let van = rules::case(b'C', 4).unwrap();
    assert_eq!(rules::matched(van, b"Vanxi", 3, 1), None);
    assert_eq!(rules::matched(van, b"", 0, 1), None);
}

/// Of every visit that tells a text, the text of that number is found, and it is the one that matched first.
#[test]
fn the_texts_of_all_visits() {
    let table = table();
    let examples = EXAMPLES.iter().map(|(_, _, word)| word.to_string());
    let names = NAMES.iter().map(|name| name.to_string());
    let pairs = FRAGMENTS.iter().flat_map(|first| FRAGMENTS.iter().map(move |second| format!("{first}{second}")));
    let mut told = 0;
    for word in examples.chain(names).chain(pairs) {
        let word = word.trim();
        for second in [false, true] {
            for visit in visits(&table, word, second) {
                let case = rules::case(visit.letter as u8, visit.number).expect("a case that spoke");
                let text = rules::matched(case, word.as_bytes(), visit.place, visit.text);
                assert_eq!(text.is_some(), visit.text > 0, "{word} at {}", visit.place);
                if let Some(text) = text {
                    let has = |texts: &[&str]| texts.get(visit.text - 1) == Some(&text);
                    assert!(case.windows.iter().any(|window| has(window.texts)));
                    assert!(word.to_ascii_uppercase().contains(text), "{word} at {}", visit.place);
                    told += 1;
                }
            }
        }
    }
    assert!(told > 10_000, "{told}");
}
