//! Books written out byte by byte from document 02's words.
use super::*;

mod closing;

/// No encoder is needed to tell how a book is laid out. Under edition 2 there is an alternate code, so that the editions differ.
fn codes(name: &[u8], header: Header) -> (Vec<u8>, Vec<u8>) {
    let length = header.limit().map_or(name.len(), |limit| name.len().min(limit as usize));
    (name[..length].to_ascii_uppercase(), vec![b'0'; header.edition as usize - 1])
}

fn fault(book: &[u8]) -> Fault {
    read(book).map_or_else(|fault| fault, |_| 0)
}

fn number(value: u64) -> Vec<u8> {
    let mut bytes = Vec::new();
    push_number(&mut bytes, value);
    bytes
}

#[test]
fn numbers_are_groups_of_seven_bits() {
    assert_eq!(number(0), [0]);
    assert_eq!(number(127), [127]);
    assert_eq!(number(128), [128, 1]);
    assert_eq!(number(16_383), [255, 127]);
    assert_eq!(number(16_384), [128, 128, 1]);
    assert_eq!(number(NUMBER_END - 1), [255, 255, 255, 127]);
}

#[test]
fn a_book_is_a_header_and_records() {
    let mut writer = Writer::of(1, 1, Some(4)).unwrap();
    writer.push(7, b"ab", codes).unwrap();
    writer.push(300, b"", codes).unwrap();
    assert_eq!(writer.as_bytes(), b"\x01\x01\x05\x07\x02ab\x02AB\x00\xac\x02\x00\x00\x00");
    let (header, records) = read(writer.as_bytes()).unwrap();
    assert_eq!(header, Header { format: 1, edition: 1, cut: 5 });
    assert_eq!(header.limit(), Some(4));
    assert_eq!(records[0], Record { live: true, station: 7, name: b"ab", primary: b"AB", alternate: b"" });
    assert_eq!(records[1], Record { live: true, station: 300, name: b"", primary: b"", alternate: b"" });
}

#[test]
fn a_new_book_carries_the_newest_format_and_edition() {
    let mut writer = Writer::new(Some(4)).unwrap();
    writer.push(7, b"ab", codes).unwrap();
    assert_eq!(writer.as_bytes(), b"\x02\x02\x05\x01\x07\x02ab\x02AB\x010");
    assert_eq!(read(writer.as_bytes()).unwrap().0, Header { format: 2, edition: 2, cut: 5 });
    for number in [0, 3, u32::MAX] {
        assert_eq!(Writer::of(number, 1, Some(u64::MAX)).unwrap_err(), UNKNOWN);
        assert_eq!(Writer::of(1, number, Some(u64::MAX)).unwrap_err(), UNKNOWN);
    }
}

#[test]
fn cuts_and_limits() {
    assert_eq!(Writer::new(None).unwrap().into_bytes(), [2, 2, 0]);
    assert_eq!(Writer::new(Some(0)).unwrap().into_bytes(), [2, 2, 1]);
    assert_eq!(Writer::new(Some(NUMBER_END - 2)).unwrap().into_bytes(), [2, 2, 255, 255, 255, 127]);
    for limit in [NUMBER_END - 1, NUMBER_END, u64::MAX] {
        assert_eq!(Writer::new(Some(limit)).unwrap_err(), BAD_NUMBER);
    }
}

#[test]
fn each_fault_is_met_at_its_byte() {
    let cases: &[(&[u8], Fault)] = &[
        (&[], 6),
        (&[1, 1], 6),
        (&[129, 0], 5),
        (&[2], 6),
        (&[3], 7),
        (&[130, 1], 7),
        (&[0, 1, 0], 7),
        (&[1, 0], 7),
        (&[1, 3], 7),
        (&[1, 129, 2], 7),
        (&[1, 130, 0], 5),
        (&[1, 2], 6),
        (&[1, 2, 0], 0),
        (&[1, 1, 128], 6),
        (&[1, 1, 128, 0], 5),
        (&[1, 1, 128, 128, 128, 128], 5),
        (&[1, 1, 0], 0),
        (&[1, 1, 0, 0], 6),
        (&[1, 1, 0, 0, 0, 0, 0], 0),
        // The second station equals the first, and is written too long.
        (&[1, 1, 0, 1, 0, 0, 0, 1], 8),
        (&[1, 1, 0, 1, 0, 0, 0, 129, 0], 5),
        // The length is over 1,024 before any byte of the name.
        (&[1, 1, 0, 1, 129, 8], 1),
        (&[1, 1, 0, 1, 128, 8], 6),
        // A high byte in a name that is cut short.
        (&[1, 1, 0, 1, 9, b'a', 200], 2),
        (&[1, 1, 0, 1, 9, b'a'], 6),
        // A high byte in a code.
        (&[1, 1, 0, 1, 0, 1, 200, 0], 0),
        (&[1, 1, 0, 1, 0, 2, 200], 6),
        // In format 2 a kind stands first: its form is judged before its value, and its value before the station.
        (&[2, 1, 0], 0),
        (&[2, 2, 0, 1], 6),
        (&[2, 2, 0, 1, 7, 0, 0, 0], 0),
        (&[2, 2, 0, 0, 7, 0, 0, 0], 0),
        (&[2, 2, 0, 2], 7),
        (&[2, 2, 0, 129, 0], 5),
        (&[2, 2, 0, 129, 1], 7),
        (&[2, 2, 0, 129], 6),
        // The order of stations covers closed records too.
        (&[2, 2, 0, 0, 7, 0, 0, 0, 1, 7], 8),
        (&[2, 2, 0, 0, 7, 0, 0, 0, 2, 7], 7),
        (&[2, 2, 0, 1, 7, 0, 0, 0, 0, 8, 0, 0, 0], 0),
    ];
    for (book, expected) in cases {
        assert_eq!(fault(book), *expected, "{book:?}");
    }
}

#[test]
fn a_record_is_tested_in_order() {
    let mut writer = Writer::new(None).unwrap();
    let long = [200; NAME_LIMIT + 1];
    writer.push(7, b"a", codes).unwrap();
    for (station, name, expected) in
        [(NUMBER_END, &long[..], 1), (NUMBER_END, &long[1..], 2), (NUMBER_END, b"a", 5), (7, b"a", 8), (6, b"a", 8)]
    {
        assert_eq!(writer.push(station, name, codes), Err(expected));
    }
    assert_eq!(writer.push(8, b"a", codes), Ok(()));
}

#[test]
fn adding_reads_first_and_asks_for_room_last() {
    let room = [1, 1, 0, 9, 9, 9, 9, 9, 9];
    assert_eq!(add(&room, 3, 7, b"a", codes), Ok(vec![1, 1, 0, 7, 1, b'a', 1, b'A', 0]));
    assert_eq!(add(&room[..8], 3, 7, b"a", codes), Err(9));
    assert_eq!(add(&room, 4, NUMBER_END, b"a", codes), Err(6));
    assert_eq!(add(&room[..3], 4, NUMBER_END, b"a", codes), Err(6));
    assert_eq!(add(&[1, 3], 4, NUMBER_END, b"a", codes), Err(7));
}

#[test]
fn a_book_is_added_to_under_its_own_edition() {
    let room = [1, 2, 0, 9, 9, 9, 9, 9, 9, 9];
    assert_eq!(add(&room, 3, 7, b"a", codes), Ok(vec![1, 2, 0, 7, 1, b'a', 1, b'A', 1, b'0']));
    assert_eq!(add(&room[..9], 3, 7, b"a", codes), Err(9));
}

/// A book of these stations and codes, both codes alike but for a dot before the alternate one.
fn coded(limit: Option<u64>, records: &[(u64, &str)]) -> Vec<u8> {
    let mut writer = Writer::new(limit).unwrap();
    for (station, code) in records {
        writer.push(*station, b"a", |_, _| (code.to_string(), format!(".{code}"))).unwrap();
    }
    writer.into_bytes()
}

#[test]
fn a_join_compares_up_to_the_smaller_limit() {
    let four = coded(Some(4), &[(1, "ABCD"), (2, "ABC"), (3, ""), (9, "ABCD")]);
    let six = coded(Some(6), &[(4, "ABCDEF"), (5, "ABC"), (6, "AB"), (7, "ABCD"), (8, "")]);
    let met = vec![(1, 4), (1, 7), (2, 5), (3, 8), (9, 4), (9, 7)];
    assert_eq!(join(&four, &six, false), Ok(met.clone()));
    let mut turned: Vec<_> = met.into_iter().map(|(first, second)| (second, first)).collect();
    turned.sort();
    assert_eq!(join(&six, &four, false), Ok(turned));
    // With the dot, three letters are left under the limit 4.
    assert_eq!(join(&four, &six, true).unwrap().len(), 10);
    assert_eq!(join(&coded(None, &[(1, "ABCDEF")]), &six, false), Ok(vec![(1, 4)]));
    assert_eq!(join(&coded(None, &[(1, "ABCD")]), &coded(None, &[(1, "ABCDE"), (2, "ABCD")]), false), Ok(vec![(1, 2)]));
    // Under the limit 0 all meet.
    assert_eq!(join(&coded(Some(0), &[(1, "AB"), (2, "")]), &six, false).unwrap().len(), 10);
    assert_eq!(join(&[1, 2, 5], &six, false), Ok(vec![]));
}

#[test]
fn a_join_is_of_one_edition() {
    let [one, two] = [&[1, 1, 0, 1, 0, 0, 0][..], &[1, 2, 0, 2, 0, 0, 0]];
    assert_eq!(join(one, one, false), Ok(vec![(1, 1)]));
    assert_eq!(join(two, two, false), Ok(vec![(2, 2)]));
    assert_eq!(join(one, two, false), Err(10));
    assert_eq!(join(two, one, false), Err(10));
    // Behind any fault of either book.
    assert_eq!(join(&one[..4], two, false), Err(6));
    assert_eq!(join(one, &two[..4], false), Err(6));
}

#[test]
fn a_join_reads_the_first_book_first() {
    let good = [1, 1, 0];
    assert_eq!(join(&[3], &[1], false), Err(7));
    assert_eq!(join(&good, &[1], false), Err(6));
    assert_eq!(join(&[1], &good, false), Err(6));
}
