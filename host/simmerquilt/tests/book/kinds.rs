//! Kinds as they are read: of each record, in each form, and from cursors of any format and edition.
use crate::draw;
use crate::witness::{same_reading, written};
use simmerquilt::book::{self, Cursor, Kind, Whole};
use simmerquilt::{Book, BookRefusal};
use words::Rng;

/// A number in groups, of which one more may follow that is 0.
fn group(number: u64, longer: bool) -> Vec<u8> {
    let mut bytes = Vec::new();
    plain::push_number(&mut bytes, number);
    if longer {
        *bytes.last_mut().unwrap() |= 128;
        bytes.push(0);
    }
    bytes
}

#[test]
fn a_kind_is_0_or_1_in_its_shortest_form() {
    for number in (0..300).chain([16_383, 16_384, (1 << 21) + 1, (1 << 28) - 1]) {
        for (longer, behind) in [(false, 0), (false, 1), (true, 0), (true, 1)] {
            // First in the book, or behind a closed record or a live one.
            for before in [&b""[..], b"\x00\x07\x00\x00\x00", b"\x01\x07\x00\x00\x00"] {
                let kind = group(number, longer);
                let record = &b"\x09\x00\x00\x00"[..4 * behind];
                let bytes = [&b"\x02\x02\x05"[..], before, &kind, record].concat();
                same_reading(&bytes);
                let read = book::read(&bytes).map(|whole| whole.records);
                let expected = match (longer, number, behind) {
                    (true, ..) => Err(BookRefusal::BadNumber),
                    (false, 0 | 1, 0) => Err(BookRefusal::CutShort),
                    (false, 0 | 1, _) => Ok(1 + before.len() / 5),
                    _ => Err(BookRefusal::Unknown),
                };
                assert_eq!(read, expected, "{bytes:?}");
            }
        }
    }
    // Five groups, and one that is not whole.
    for (bytes, fault) in
        [(&b"\x02\x02\x05\x81\x80\x80\x80"[..], 5), (b"\x02\x02\x05\x81\x80\x80", 6), (b"\x02\x02\x05\x81", 6)]
    {
        same_reading(bytes);
        assert_eq!(book::read(bytes).unwrap_err().number(), fault);
    }
}

#[test]
fn format_1_has_no_kinds() {
    let book = Book::from_bytes(b"\x01\x02\x05\x00\x01a\x01A\x01A\x01\x00\x00\x00".to_vec()).unwrap();
    let kinds: Vec<_> = book.records().map(|record| (record.station, record.kind)).collect();
    assert_eq!(kinds, [(0, Kind::Live), (1, Kind::Live)]);
    assert_eq!((book.len(), book.live()), (2, 2));
}

#[test]
fn closed_records_are_given_and_counted() {
    let bytes = b"\x02\x01\x05\x00\x07\x01a\x01A\x01A\x01\x08\x00\x00\x00\x00\x09\x00\x00\x00";
    let Whole { records, live, end, .. } = book::read(bytes).unwrap();
    assert_eq!((records, live, end.floor), (3, 1, 10));
    let book = Book::from_bytes(bytes.to_vec()).unwrap();
    let kinds: Vec<_> = book.records().map(|record| (record.station, record.kind)).collect();
    assert_eq!(kinds, [(7, Kind::Closed), (8, Kind::Live), (9, Kind::Closed)]);
    assert_eq!(book.live_records().map(|record| record.station).collect::<Vec<_>>(), [8]);
    assert_eq!(book.records().len(), 3);
}

#[test]
fn a_cursor_of_an_unknown_format_or_edition_is_refused_everywhere() {
    let mut rng = Rng::new(31, 0);
    let unknown = [0, 3, 4, 127, 128, 257, 258, 1 << 28, 1 << 31, u32::MAX];
    for _ in 0..200 {
        let count = rng.below(5);
        let bytes = written(&draw::list(&mut rng, count, draw::short_name));
        for place in (0..bytes.len() + 3).chain([usize::MAX]) {
            let floor = draw::number(&mut rng) as u32;
            let known = 1 + rng.below(2) as u32;
            let number = unknown[rng.below(unknown.len())];
            for (format, edition) in [(number, known), (known, number), (number, number)] {
                let cursor = Cursor { format, edition, place, floor };
                assert_eq!(book::next(&bytes, cursor), Err(BookRefusal::Unknown), "{bytes:?} at {cursor:?}");
            }
        }
    }
    for number in unknown {
        for (format, edition) in [(number, 1), (number, 2), (1, number), (2, number)] {
            for place in [0, 1, usize::MAX] {
                assert_eq!(book::next(&[], Cursor { format, edition, place, floor: 0 }), Err(BookRefusal::Unknown));
            }
        }
    }
}
