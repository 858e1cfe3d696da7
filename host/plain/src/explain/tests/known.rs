//! What documents 01 and 02 say of single words.
use super::{codes, explain, key, listed, under, Refused, Row};
use words::{FIRST_TOLD, KNOWN};

fn text(code: Vec<u8>) -> String {
    String::from_utf8(code).expect("codes are ASCII")
}

#[test]
fn known_names_have_their_keys() {
    for &(word, limit, primary, alternate, visits) in KNOWN {
        let limit = limit.map(|limit| limit as u64);
        let rows = under(1, word.as_bytes(), limit);
        let (first, second) = codes(&rows, limit);
        assert_eq!(
            (text(first), text(second), rows.len()),
            (primary.to_string(), alternate.to_string(), visits),
            "{word:?}"
        );
    }
}

#[test]
fn van_chi_sounds_with_k_by_edition_2() {
    let chi = |edition| listed(edition, "Van Chi")[4];
    let row = Row { place: 4, letter: b'C'.into(), case: 6, text: 1, primary: b'X'.into(), alternate: b'K'.into(), over: 1 };
    assert_eq!(chi(1), row);
    assert_eq!(chi(2), Row { case: 4, primary: b'K'.into(), ..row });
    assert_eq!(listed(1, "Vanchi"), listed(2, "Vanchi"));
}

#[test]
fn the_first_window_that_is_a_text_tells_its_number() {
    for &(word, place, letter, case, text) in FIRST_TOLD {
        for edition in [1, 2] {
            let rows = listed(edition, word);
            let row = rows.iter().find(|row| row.place as usize == place).expect("the place is visited");
            let told = (key(row.letter), row.case as usize, row.text as usize);
            assert_eq!(told, (letter.to_string(), case, text), "{word:?}: {row:?}");
        }
    }
}

#[test]
fn a_listing_is_a_row_a_visit() {
    let numbers: Vec<_> = listed(1, " knuth ").iter().map(Row::numbers).collect();
    let (n, u, t) = (b'N'.into(), b'U'.into(), b'T'.into());
    assert_eq!(numbers, [[1, n, 2, 0, n, n, 0], [2, u, 2, 0, 0, 0, 0], [3, t, 3, 1, b'0'.into(), t, 1]]);
    // Two bytes are told as the first plus 256 times the second; what is no letter adds nothing and is told as it is.
    let numbers: Vec<_> = listed(1, "Wit\x1f1wicz").iter().map(Row::numbers).collect();
    let [ts, fx] = [*b"TS", *b"FX"].map(|[first, second]| u32::from(first) + 256 * u32::from(second));
    assert_eq!(numbers[3..], [[3, 31, 1, 0, 0, 0, 0], [4, 49, 1, 0, 0, 0, 0], [5, b'W'.into(), 5, 1, ts, fx, 3]]);
}

#[test]
fn gains_are_told_before_clipping() {
    let rows = under(1, b"KXZ", Some(2));
    assert_eq!(rows[1].primary, u32::from(b'K') + 256 * u32::from(b'S'));
    assert_eq!(codes(&rows, Some(2)), (b"KK".to_vec(), b"KK".to_vec()));
    assert_eq!(codes(&rows, Some(u64::MAX)), (b"KKS".to_vec(), b"KKS".to_vec()));
}

#[test]
fn bytes_9_to_13_and_32_are_trimmed_and_no_others() {
    let blanks = "\t\n\x0b\x0c\r ";
    assert_eq!(listed(1, &format!("{blanks}oder{blanks}")), listed(1, "oder"));
    assert_eq!(listed(1, blanks), []);
    for byte in ["\x08", "\x0e", "\x1c", "\x1f", "\0"] {
        assert_eq!(listed(1, byte).len(), 1);
        assert_eq!(listed(1, &format!("{byte}oder{byte}")).len(), 6);
    }
}

#[test]
fn refusals_come_in_their_order() {
    let refused = |number, place| Err(Refused { number, place });
    let long = [200; 1025];
    for edition in [0, 3, 257, (1 << 32) + 1, u64::MAX] {
        assert_eq!(explain(edition, &long, None, 0), refused(7, 0));
        assert_eq!(explain(edition, b"Oder", Some(0), 9), refused(7, 0));
    }
    for edition in [1, 2] {
        assert_eq!(explain(edition, &long, None, 0), refused(1, 0));
        assert_eq!(explain(edition, &[b' '; 1025], None, 9), refused(1, 0));
        assert_eq!(explain(edition, &long[1..], Some(0), 0), refused(2, 0));
        assert_eq!(explain(edition, b"  Oder\x80\xff", None, 0), refused(2, 6));
        assert_eq!(explain(edition, b"Oder", None, 3), refused(9, 0));
        assert_eq!(explain(edition, b"Oder", None, 4).map(|rows| rows.len()), Ok(4));
        assert_eq!(explain(edition, b"Oder", Some(1), 1).map(|rows| rows.len()), Ok(1));
        assert_eq!(explain(edition, b"Oder", Some(1), 0), refused(9, 0));
        assert_eq!(explain(edition, b"Oder", Some(0), 0), Ok(vec![]));
        assert_eq!(explain(edition, &[b'b'; 1024], None, 512).map(|rows| rows.len()), Ok(512));
    }
}
