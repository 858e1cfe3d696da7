//! Books that are whole, cut short, changed in one byte, or never were books.
use crate::draw::{self, List};
use crate::witness::{made, same_reading, same_record, same_walk, written};
use plain::Reader;
use simmerquilt::book::Cursor;
use simmerquilt::{Book, BookRefusal};
use words::Rng;

const BOOKS: usize = 3000;
const DAMAGED_BOOKS: usize = 1000;
const STRINGS: usize = 400_000;

fn lists(seed: u64, count: usize, most: usize, name: fn(&mut Rng) -> Vec<u8>) -> impl Iterator<Item = List> {
    let mut rng = Rng::new(seed, 0);
    (0..count).map(move |_| {
        let records = rng.below(most + 1);
        draw::list(&mut rng, records, name)
    })
}

#[test]
fn both_write_the_same_bytes_and_read_them_alike() {
    for list in lists(1, BOOKS, 24, draw::name) {
        let book = made(&list);
        let bytes = written(&list);
        assert_eq!(book.as_bytes(), bytes, "{list:?}");
        same_reading(&bytes);
        assert_eq!((book.limit(), book.format(), book.edition()), (list.limit, list.format, list.edition));
        assert_eq!((book.len(), book.live()), (list.records.len(), list.records.len() - list.closed.len()));
        assert_eq!(book.is_empty(), list.records.is_empty());
    }
}

#[test]
fn the_same_list_has_another_book_under_each_edition() {
    let mut differ = 0;
    for list in lists(11, BOOKS / 10, 24, draw::name) {
        let [one, two] = plain::EDITIONS.map(|edition| made(&List { edition, ..list.clone() }));
        assert_eq!((one.edition(), two.edition()), (1, 2));
        differ += usize::from(!one.records().eq(two.records()));
    }
    // They are told apart by their codes too, and not by their headers alone.
    assert!(differ > BOOKS / 40, "{differ}");
}

#[test]
fn a_book_gives_its_records_back() {
    for list in lists(2, 500, 24, draw::name) {
        let bytes = written(&list);
        let (_, expected) = plain::read(&bytes).unwrap();
        let book = Book::from_bytes(bytes.clone()).unwrap();
        assert_eq!(book.records().len(), expected.len());
        assert!(book.records().zip(expected).all(|(got, expected)| same_record(got, expected)));
        let names: Vec<_> = book.records().map(|record| (u64::from(record.station), record.name.to_vec())).collect();
        assert_eq!(names, list.records);
        let closed = book.records().filter(|record| !record.kind.is_live()).map(|record| u64::from(record.station));
        assert!(closed.eq(list.closed.iter().copied()));
        assert!(book.live_records().eq(book.records().filter(|record| record.kind.is_live())));
        assert_eq!(book.into_bytes(), bytes);
    }
}

#[test]
fn books_cut_short_at_every_byte() {
    for list in lists(3, DAMAGED_BOOKS, 12, draw::short_name) {
        let bytes = written(&list);
        for length in 0..bytes.len() {
            same_reading(&bytes[..length]);
        }
    }
    for list in lists(4, 20, 3, draw::name) {
        let bytes = written(&list);
        for length in 0..bytes.len() {
            same_reading(&bytes[..length]);
        }
    }
}

/// Another byte in turn for each: one bit changed, and the ends of both halves.
fn changes(byte: u8) -> impl Iterator<Item = u8> {
    (0..8).map(move |bit| byte ^ (1 << bit)).chain([0, 127, 128, 255]).filter(move |changed| *changed != byte)
}

fn with_each_byte_changed(mut bytes: Vec<u8>) {
    for place in 0..bytes.len() {
        let byte = bytes[place];
        for changed in changes(byte) {
            bytes[place] = changed;
            same_reading(&bytes);
        }
        bytes[place] = byte;
    }
}

#[test]
fn books_with_each_byte_changed() {
    for list in lists(5, DAMAGED_BOOKS, 12, draw::short_name) {
        with_each_byte_changed(written(&list));
    }
    for list in lists(6, 12, 2, draw::name) {
        with_each_byte_changed(written(&list));
    }
}

#[test]
fn bytes_that_look_like_books() {
    let mut rng = Rng::new(7, 0);
    let mut numbers = [0; 10];
    for turn in 0..STRINGS {
        let bytes = if turn % 2 == 0 { draw::shaped(&mut rng) } else { draw::bytes(&mut rng) };
        same_reading(&bytes);
        numbers[plain::read(&bytes).map_or_else(|fault| fault, |_| 0) as usize] += 1;
    }
    // Each answer of a reader has come often.
    assert!([0, 1, 2, 5, 6, 7, 8].iter().all(|number| numbers[*number] > STRINGS / 200), "{numbers:?}");
}

#[test]
fn every_short_string_of_some_bytes() {
    const BYTES: [u8; 6] = [0, 1, 2, 127, 128, 255];
    for length in 0..=6 {
        for string in 0..BYTES.len().pow(length) {
            let bytes: Vec<u8> = (0..length).map(|at| BYTES[string / BYTES.len().pow(at) % BYTES.len()]).collect();
            same_reading(&bytes);
            // The same as what follows a header.
            for format in plain::FORMATS {
                for edition in plain::EDITIONS {
                    same_reading(&[&[format as u8, edition as u8, 0], &bytes[..]].concat());
                }
            }
        }
    }
}

#[test]
fn other_formats_and_editions_are_not_known() {
    for number in (0..300).chain([16_383, 16_384, (1 << 21) + 1, (1 << 28) - 1]) {
        let mut group = Vec::new();
        plain::push_number(&mut group, number);
        for other in [1, 2] {
            let bytes = [&group[..], &[other, 5]].concat();
            same_reading(&bytes);
            let read = Book::from_bytes(bytes).map(|book| u64::from(book.format()));
            assert_eq!(read, if matches!(number, 1 | 2) { Ok(number) } else { Err(BookRefusal::Unknown) });
            let bytes = [&[other], &group[..], &[5]].concat();
            same_reading(&bytes);
            let read = Book::from_bytes(bytes).map(|book| u64::from(book.edition()));
            assert_eq!(read, if matches!(number, 1 | 2) { Ok(number) } else { Err(BookRefusal::Unknown) });
        }
    }
}

#[test]
fn any_cursor_gets_an_answer() {
    let mut rng = Rng::new(8, 0);
    for list in lists(9, 200, 6, draw::short_name) {
        let bytes = written(&list);
        // Also of the other format than the book has.
        for format in plain::FORMATS {
            let header = plain::Header { format, edition: list.edition, cut: 0 };
            for place in 0..bytes.len() + 3 {
                for floor in [0, 1, draw::number(&mut rng) as u32, (1 << 28) - 1, 1 << 28, u32::MAX] {
                    let reader = Reader::at(&bytes, header, place, floor.checked_sub(1)).unwrap();
                    same_walk(&bytes, Cursor { format, edition: list.edition, place, floor }, reader);
                }
            }
            let far = Cursor { format, edition: list.edition, place: usize::MAX, floor: 0 };
            assert_eq!(simmerquilt::book::next(&bytes, far), Ok(None));
        }
    }
}

#[test]
fn codes_may_hold_any_bytes() {
    let book = Book::from_bytes(b"\x01\x01\x00\x07\x01a\x02\x80\xff\x01\x00".to_vec()).unwrap();
    let record = book.records().next().unwrap();
    assert_eq!((record.primary, record.alternate), (&[0x80, 0xff][..], &[0][..]));
}

#[test]
fn codes_may_have_any_length() {
    let mut rng = Rng::new(10, 0);
    for length in [126, 127, 128, 2047, 2048, 16_383, 16_384, 100_000, 2_097_152] {
        let mut bytes = vec![1, 1, 5, 7, 1, b'a'];
        for length in [length, length / 2] {
            plain::push_number(&mut bytes, length);
            bytes.extend((0..length).map(|_| rng.byte()));
        }
        same_reading(&bytes);
        same_reading(&bytes[..bytes.len() - 1]);
        assert_eq!(Book::from_bytes(bytes).unwrap().records().next().unwrap().primary.len() as u64, length);
    }
}

#[test]
fn numbers_of_four_groups_are_the_longest() {
    for bytes in [&[1, 1, 0, 255, 255, 255, 127, 0, 0, 0][..], &[2, 2, 0, 1, 255, 255, 255, 127, 0, 0, 0]] {
        let mut book = Book::from_bytes(bytes.to_vec()).unwrap();
        assert_eq!(book.records().next().unwrap().station, (1 << 28) - 1);
        // No further record can have a station above it.
        for station in [0, (1 << 28) - 1] {
            assert_eq!(book.add(station, "a").unwrap_err().number(), 8);
        }
        assert_eq!(book.add(1 << 28, "a").unwrap_err().number(), 5);
        assert_eq!(book.as_bytes(), bytes);
    }
}
