//! Bytes that are no book on either side, and books of different editions: the first book's fault comes first, then the second's, then
//! that the editions differ, then the scratch, then the room.
use crate::draw;
use crate::witness::{same, Case, Told, BOTH};
use plain::EDITIONS;
use simmerquilt::{Book, JoinRefusal, Joiner};
use words::Rng;

/// Each fault of a book, with its number.
const FAULTS: [(&[u8], u64); 14] = [
    (b"\x01\x01\x05\x07\x81\x08", 1),
    (b"\x01\x01\x05\x07\x02a\x80\x01A\x01A", 2),
    (b"\x01\x01\x80\x00", 5),
    (b"", 6),
    (b"\x01\x01\x05\x07\x01a\x01A\x01", 6),
    (b"\x03", 7),
    (b"\x02\x01\x05\x02\x07\x00\x00\x00", 7),
    (b"\x02\x01\x05\x81\x00", 5),
    (b"\x02\x01\x05\x00\x07\x02a\x80\x01A\x01A", 2),
    (b"\x02\x01\x05\x00", 6),
    (b"\x02\x01\x05\x00\x07\x00\x00\x00\x01\x07", 8),
    (b"\x01\x00\x05", 7),
    (b"\x01\x03\x05", 7),
    (b"\x01\x01\x05\x07\x00\x00\x00\x07\x00\x00\x00", 8),
];

const GOOD: &[u8] = b"\x01\x01\x05\x07\x01a\x01A\x01A\x09\x01a\x01A\x01A";

/// The same bytes under an edition, where they are of edition 1.
fn under(edition: u32, bytes: &[u8]) -> Vec<u8> {
    let mut bytes = bytes.to_vec();
    if let [1 | 2, one @ 1, ..] = &mut bytes[..] {
        *one = edition as u8;
    }
    bytes
}

/// Every edition of the first book with every one of the second.
fn editions() -> impl Iterator<Item = (u32, u32)> {
    EDITIONS.into_iter().flat_map(|first| EDITIONS.map(|second| (first, second)))
}

/// Whatever scratch and room are lent, none of it is needed to tell a fault.
fn refused(first: &[u8], second: &[u8], told: Told) {
    for choice in BOTH {
        let case = Case::new(first, second, choice);
        assert_eq!(case.refused(), Some(told));
        for scratch in [0, 1, 64] {
            for room in [0, 1, 16] {
                case.joins(scratch, room);
            }
            for most in [0, 1, u64::MAX] {
                case.counts(scratch, most);
            }
        }
        case.grows(&mut Joiner::new());
    }
}

#[test]
fn each_fault_of_the_first_book() {
    for (one, other) in editions() {
        for (first, number) in FAULTS {
            refused(&under(one, first), &under(other, GOOD), Told::First(number));
        }
    }
}

#[test]
fn each_fault_of_the_second_book() {
    for (one, other) in editions() {
        for (second, number) in FAULTS {
            refused(&under(one, GOOD), &under(other, second), Told::Second(number));
        }
    }
}

#[test]
fn the_first_fault_of_two() {
    for (one, other) in editions() {
        for (first, number) in FAULTS {
            for (second, _) in FAULTS {
                refused(&under(one, first), &under(other, second), Told::First(number));
            }
        }
    }
}

#[test]
fn books_of_different_editions() {
    let different = Told::Neither(10);
    for (one, other) in [(1, 2), (2, 1)] {
        // Also where they have no records, and where no scratch is lent or no room: that is asked for behind it.
        for (first, second) in [(GOOD, GOOD), (GOOD, &GOOD[..3]), (&GOOD[..3], GOOD), (&GOOD[..3], &GOOD[..3])] {
            refused(&under(one, first), &under(other, second), different);
        }
    }
    for edition in EDITIONS {
        let good = under(edition, GOOD);
        same(&good, &good, &mut Joiner::new());
        assert_eq!(Case::new(&good, &good, BOTH[0]).pairs(), 4);
    }
}

#[test]
fn drawn_books_of_different_editions() {
    let rng = &mut Rng::new(1, 11);
    let joiner = &mut Joiner::new();
    let pool = draw::pool(rng, 20);
    for (one, other) in draw::limits() {
        let [ours, theirs] = [(); 2].map(|_| {
            let count = draw::size(rng);
            draw::named(rng, &pool, count)
        });
        let first = EDITIONS.map(|edition| draw::book_in(edition, one, &ours));
        let second = EDITIONS.map(|edition| draw::book_in(edition, other, &theirs));
        for first in &first {
            for second in &second {
                same(first.as_bytes(), second.as_bytes(), joiner);
                let differ = (first.edition() != second.edition()).then_some(JoinRefusal::EditionsDiffer);
                assert_eq!(BOTH.map(|choice| first.join(second, choice).err()), [differ; 2]);
            }
        }
    }
}

#[test]
fn a_stored_book_is_not_joined_with_a_new_one() {
    let mut stored = Book::from_bytes(under(1, &GOOD[..3])).unwrap();
    let mut new = Book::new(Some(4)).unwrap();
    for book in [&mut stored, &mut new] {
        book.add(7, "Weser").unwrap();
    }
    for choice in BOTH {
        assert_eq!(stored.join(&new, choice), Err(JoinRefusal::EditionsDiffer));
        assert_eq!(new.join(&stored, choice), Err(JoinRefusal::EditionsDiffer));
        assert_eq!([&stored, &new].map(|book| book.join(book, choice).unwrap().len()), [1, 1]);
    }
}

#[test]
fn a_good_book_and_one_that_is_damaged() {
    let rng = &mut Rng::new(1, 9);
    let joiner = &mut Joiner::new();
    let pool = draw::pool(rng, 6);
    for (one, other) in [(Some(4), Some(6)), (Some(1), None), (None, Some(3))] {
        let good = draw::book(one, &draw::named(rng, &pool, 5)).into_bytes();
        let mut bytes = draw::book(other, &draw::named(rng, &pool, 4)).into_bytes();
        for length in 0..bytes.len() {
            same(&good, &bytes[..length], joiner);
            same(&bytes[..length], &good, joiner);
        }
        for place in 0..bytes.len() {
            // One byte changed: another book, or none.
            let byte = bytes[place];
            for changed in [byte ^ 1, byte ^ 3, byte ^ 128, 0, 255] {
                bytes[place] = changed;
                same(&good, &bytes, joiner);
                same(&bytes, &good, joiner);
                same(&bytes, &bytes, joiner);
            }
            bytes[place] = byte;
        }
    }
}
