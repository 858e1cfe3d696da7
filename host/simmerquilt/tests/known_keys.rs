//! Document 01's names with known keys, through the names that users know.
use simmerquilt::{DoubleMetaphone, Edition};
use words::KNOWN;

#[test]
fn known_names_have_their_keys() {
    for &(word, limit, primary, alternate, visits) in KNOWN {
        let result = DoubleMetaphone::new(limit).double_metaphone(word).unwrap();
        let got = (result.primary(), result.alternate(), result.visits());
        assert_eq!(got, (primary, alternate, visits), "{word:?} under {limit:?}");
    }
}

/// By edition 2, where it differs from edition 1 and beside it.
const KNOWN_BY_2: &[(&str, Option<usize>, &str, &str, usize)] = &[
    ("Van Chi", None, "FNK", "FNK", 6),
    ("Van Chi", Some(4), "FNK", "FNK", 6),
    ("Van Chi", Some(2), "FN", "FN", 3),
    ("VON CHI", None, "FNK", "FNK", 6),
    ("\t van chi ", None, "FNK", "FNK", 6),
    // Every CH of the word. That of SCH goes with its S, and a last ACH has K by both editions.
    ("Van Chichi", None, "FNKK", "FNKK", 8),
    ("Von Schach", None, "FNXK", "FNXK", 7),
    // Without the space, with another blank, with another vowel, and not in front.
    ("Vanchi", None, "FNX", "FNK", 5),
    ("Van\tChi", None, "FNX", "FNK", 6),
    ("Ven Chi", None, "FNX", "FNK", 6),
    ("Ivan Chi", None, "AFNX", "AFNK", 7),
];

/// A word's codes and visits by an edition.
fn by(edition: Edition, word: &str, limit: Option<usize>) -> (String, String, usize) {
    let result = DoubleMetaphone::new(limit).in_edition(edition).double_metaphone(word).unwrap();
    (result.primary().to_string(), result.alternate().to_string(), result.visits())
}

#[test]
fn known_names_have_their_keys_by_edition_2() {
    for &(word, limit, primary, alternate, visits) in KNOWN_BY_2 {
        let expected = (primary.to_string(), alternate.to_string(), visits);
        assert_eq!(by(Edition::Two, word, limit), expected, "{word:?} under {limit:?}");
    }
}

#[test]
fn the_editions_differ_on_van_chi_alone() {
    for &(word, limit, primary, alternate, visits) in KNOWN {
        assert_eq!(by(Edition::One, word, limit), (primary.to_string(), alternate.to_string(), visits));
        assert_eq!(by(Edition::One, word, limit) != by(Edition::Two, word, limit), word == "Van Chi", "{word:?}");
    }
    assert_eq!(by(Edition::One, "Van Chi", None), ("FNX".to_string(), "FNK".to_string(), 6));
    assert_eq!(by(Edition::Two, "Van Chi", None), ("FNK".to_string(), "FNK".to_string(), 6));
}

#[test]
fn one_code_is_that_of_both_by_either_edition() {
    for (edition, primary, alternate) in [(Edition::One, "FNX", "FNK"), (Edition::Two, "FNK", "FNK")] {
        let encoder = DoubleMetaphone::default().in_edition(edition);
        assert_eq!(encoder.encode("Van Chi").unwrap(), primary);
        assert_eq!(encoder.encode_alternate("Van Chi").unwrap(), alternate);
        assert_eq!(encoder.edition(), edition);
    }
}

#[test]
fn the_equality_question_is_by_edition_1() {
    let equal = |other| DoubleMetaphone::default().is_double_metaphone_equal("Van Chi", other, false).unwrap();
    assert!(equal("Van Shea"));
    assert!(!equal("Van Key"));
}

#[test]
fn one_code_is_that_of_both() {
    let encoder = DoubleMetaphone::new(None);
    assert_eq!(encoder.encode("Villa").unwrap(), "FL");
    assert_eq!(encoder.encode_alternate("Villa").unwrap(), "F");
}

#[test]
fn the_default_limit_is_four() {
    assert_eq!(DoubleMetaphone::default(), DoubleMetaphone::new(Some(4)));
    assert_eq!(DoubleMetaphone::default().encode("Mac Gregor").unwrap(), "MKRK");
}

#[test]
fn text_and_bytes_are_one_word() {
    let encoder = DoubleMetaphone::default();
    let expected = encoder.encode("Thames").unwrap();
    assert_eq!(encoder.encode(b"Thames").unwrap(), expected);
    assert_eq!(encoder.encode(&b"Thames"[..]).unwrap(), expected);
    assert_eq!(encoder.encode(String::from("Thames")).unwrap(), expected);
}

#[test]
fn case_and_blank_ends_do_not_matter() {
    let encoder = DoubleMetaphone::new(None);
    let expected = encoder.double_metaphone("MAC GREGOR").unwrap();
    assert_eq!(encoder.double_metaphone("\t\n\x0b\x0c\r Mac Gregor \r\n").unwrap(), expected);
}

#[test]
fn bytes_28_to_31_are_not_blank() {
    // Behind one of them the J is not last, and before it the vowel is not at place 0.
    let encoder = DoubleMetaphone::new(None);
    assert_eq!(encoder.encode_alternate("Saj").unwrap(), "S ");
    for byte in 28..=31u8 {
        assert_eq!(encoder.encode_alternate([b"Saj".as_slice(), &[byte]].concat()).unwrap(), "SJ");
        assert_eq!(encoder.encode([&[byte], b"oder".as_slice()].concat()).unwrap(), "TR");
    }
}

#[test]
fn equality_takes_the_limited_codes() {
    let equal = |limit, first, second, alternate| {
        DoubleMetaphone::new(limit).is_double_metaphone_equal(first, second, alternate).unwrap()
    };
    assert!(equal(None, "Villa", "Fillo", false));
    assert!(equal(None, "", " \t", false));
    assert!(equal(Some(0), "Oder", "Elbe", true));
    assert!(equal(Some(3), "artois", "art", true));
    assert!(!equal(Some(4), "artois", "art", true));
    assert!(equal(Some(4), "artois", "art", false));
}
