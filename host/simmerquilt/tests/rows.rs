//! The wrapper's rows: they iterate, name the text that matched, and print their case's line as docs/RULES.md has it.
use simmerquilt::{explain_into, DoubleMetaphone, Edition, Refusal, Row, ROW, WORD_LIMIT};
use words::{mixed, Rng, EXAMPLES, TOLD};

const RULES: &str = include_str!("../../../docs/RULES.md");

/// The rows of a word by edition 1 with no limit.
fn rows(word: impl AsRef<[u8]>) -> Vec<Row> {
    DoubleMetaphone::new(None).explain(word).unwrap().into_iter().collect()
}

/// The text that the row at a place tells, by its number and itself.
fn told(word: &str, place: usize) -> (usize, Option<&'static str>) {
    let row = rows(word).into_iter().find(|row| row.place() == place).unwrap();
    (row.text(), row.matched())
}

#[test]
fn the_text_that_matched_is_named() {
    assert_eq!(told("AGER", 1), (11, Some("ER")));
    assert_eq!(told("ALLEA", 1), (3, Some("ALLE")));
    assert_eq!(told("MMER", 0), (1, Some("ER")));
    assert_eq!(told("SCHAW", 4), (1, Some("SCH")));
    assert_eq!(told("BACH", 2), (0, None));
    assert_eq!(told("machER", 2), (2, Some("MACHER")));
    assert_eq!(told("  Mac Gregor", 2), (3, Some(" G")));
}

/// Of every visit, a text is named exactly where its number is not 0, and it stands in the word.
#[test]
fn a_text_is_named_where_a_number_is_told() {
    let drawn = mixed(&mut Rng::new(6, 9), 20_000);
    let known =
        TOLD.iter().map(|told| told.4).chain(EXAMPLES.iter().map(|example| example.2)).map(|word| word.as_bytes().to_vec());
    for word in drawn.into_iter().chain(known).filter(|word| word.is_ascii() && word.len() <= WORD_LIMIT) {
        let capitals = String::from_utf8(word.to_ascii_uppercase()).unwrap();
        for row in rows(&word) {
            assert_eq!(row.matched().is_some(), row.text() > 0, "{capitals}: {row}");
            assert!(row.matched().is_none_or(|text| capitals.contains(text)), "{capitals}: {row}");
            assert!(!row.rule().is_empty(), "{capitals}: {row}");
        }
    }
}

/// The line of each example's case stands in the page, in the row of its number; the page breaks long lines.
#[test]
fn a_row_prints_the_line_of_the_page() {
    for (key, case, word) in EXAMPLES {
        let row = rows(word).into_iter().find(|row| row.case() == *case && serves(key, row.letter())).unwrap();
        let printed = row.to_string();
        assert!(printed.ends_with(&format!(" ({})", row.rule())), "{printed}");
        let found = RULES.replace("<br>", " ").lines().any(|line| line.starts_with(&format!("| {case} | {} |", row.rule())));
        assert!(found, "{key}{case}: {}", row.rule());
    }
}

/// Whether a row of the table, by its key, serves the letter.
fn serves(key: &str, letter: u8) -> bool {
    match key {
        "A" => b"AEIOUY".contains(&letter),
        "rest" => !letter.is_ascii_uppercase(),
        _ => key.as_bytes() == [letter],
    }
}

#[test]
fn rows_print() {
    let why = DoubleMetaphone::new(None).explain("Saj 7").unwrap();
    let printed = why.to_string();
    let lines: Vec<&str> = printed.lines().collect();
    assert_eq!(lines.len(), 5);
    assert_eq!(lines[0], "at 0 S, case 18: S and S (otherwise)");
    assert_eq!(lines[1], "at 1 A, case 2: nothing and nothing (otherwise)");
    assert_eq!(lines[3], "at 3 \u{2423}, case 1: nothing and nothing (always)");
    assert_eq!(lines[4], "at 4 7, case 1: nothing and nothing (always)");
    assert_eq!(rows("Saj")[2].to_string(), "at 2 J, case 8: J and \u{2423} (this is the last letter)");
    assert_eq!(rows("a\u{1}")[1].to_string(), "at 1 byte 1, case 1: nothing and nothing (always)");
    let gregor = rows("Mac Gregor")[2].to_string();
    assert!(gregor.starts_with("at 2 C, case 16 by \u{2423}G: K and K, passes over 2 ("), "{gregor}");
}

#[test]
fn gains_have_their_bytes() {
    let rows = rows("KXZ");
    let gains: Vec<(Vec<u8>, Vec<u8>)> =
        rows.iter().map(|row| (row.primary().bytes().collect(), row.alternate().bytes().collect())).collect();
    assert_eq!(gains[1], (b"KS".to_vec(), b"KS".to_vec()));
    assert_eq!(gains[2], (b"S".to_vec(), b"TS".to_vec()));
}

/// The wrapper's rows are those of the lent call, under its encoder's edition and limit.
#[test]
fn the_owned_rows_are_the_lent_ones() {
    for limit in [None, Some(0), Some(1), Some(4), Some(6)] {
        for edition in [Edition::One, Edition::Two] {
            for word in ["Van Chi", "  Rogier", "Schermerhorn", "GN", "", " \t"] {
                let why = DoubleMetaphone::new(limit).in_edition(edition).explain(word).unwrap();
                let mut room = vec![0; ROW * word.len()];
                let told = explain_into(edition.number(), word.as_bytes(), limit.map(|limit| limit as u64), &mut room);
                let owned: Vec<u32> = why.iter().flat_map(numbers).collect();
                assert_eq!((told.number, told.rows, &room[..ROW * told.rows]), (0, why.rows().len(), &owned[..]), "{word}");
            }
        }
    }
}

fn numbers(row: &Row) -> [u32; ROW] {
    let gain = |bytes: Vec<u8>| bytes.iter().rev().fold(0, |gain, byte| 256 * gain + u32::from(*byte));
    let (primary, alternate) = (gain(row.primary().bytes().collect()), gain(row.alternate().bytes().collect()));
    let [place, case, text, over] = [row.place(), row.case(), row.text(), row.over()].map(|number| number as u32);
    [place, u32::from(row.letter()), case, text, primary, alternate, over]
}

#[test]
fn refusals_are_told() {
    let encoder = DoubleMetaphone::default();
    assert_eq!(encoder.explain(vec![b'b'; WORD_LIMIT + 1]), Err(Refusal::TooLong));
    assert_eq!(encoder.explain("Gar\u{e7}on"), Err(Refusal::NotAscii { place: 3 }));
    assert_eq!(explain_into(1, b"Gar", None, &mut [0; 2 * ROW]).refusal(), Some(Refusal::RowsShort));
    assert_eq!(explain_into(3, b"Gar", None, &mut []).refusal(), Some(Refusal::UnknownEdition));
    assert_eq!(Refusal::RowsShort.to_string(), "the room holds fewer rows than the word has visits");
    assert_eq!(rows(vec![b'b'; WORD_LIMIT]).len(), WORD_LIMIT / 2);
}
