//! The pairs themselves, of books of either edition drawn at every pair of cuts.
use crate::draw;
use crate::witness::{same, Case, BOTH};
use plain::Writer;
use simmerquilt::{Book, Choice, Joiner, Pair};
use words::Rng;

const SEEDS: u64 = 30;

#[test]
fn books_of_right_codes_at_all_pairs_of_cuts() {
    let mut joiner = Joiner::new();
    for seed in 0..SEEDS {
        let rng = &mut Rng::new(seed, 1);
        let pool = draw::pool(rng, 40);
        for (one, other) in draw::limits() {
            let edition = draw::edition(rng);
            let [first, second] = [one, other].map(|limit| {
                let count = draw::size(rng);
                draw::book_in(edition, limit, &draw::named(rng, &pool, count))
            });
            same(first.as_bytes(), second.as_bytes(), &mut joiner);
        }
    }
}

#[test]
fn books_of_any_codes_at_all_pairs_of_cuts() {
    let mut joiner = Joiner::new();
    for seed in 0..SEEDS {
        let rng = &mut Rng::new(seed, 2);
        for (one, other) in draw::limits() {
            let edition = draw::edition(rng);
            let [first, second] = [one, other].map(|limit| {
                let count = draw::size(rng);
                draw::coded(rng, edition, limit, count)
            });
            same(&first, &second, &mut joiner);
        }
    }
}

#[test]
fn some_hundred_records_at_all_pairs_of_cuts() {
    let mut joiner = Joiner::new();
    let rng = &mut Rng::new(1, 3);
    let pool = draw::pool(rng, 200);
    for (one, other) in draw::limits() {
        let edition = draw::edition(rng);
        let [first, second] = [one, other].map(|limit| {
            let count = 250 + rng.below(100);
            draw::book_in(edition, limit, &draw::named(rng, &pool, count))
        });
        same(first.as_bytes(), second.as_bytes(), &mut joiner);
        let [first, second] = [one, other].map(|limit| {
            let count = 250 + rng.below(100);
            draw::coded(rng, edition, limit, count)
        });
        same(&first, &second, &mut joiner);
    }
}

#[test]
fn some_thousand_records_and_few() {
    let rng = &mut Rng::new(1, 4);
    let pool = draw::pool(rng, 2000);
    for (one, other) in [(4000, 4000), (4000, 3), (3, 4000), (4000, 0), (0, 4000)] {
        let first = draw::book(Some(4), &draw::named(rng, &pool, one));
        let second = draw::book(Some(6), &draw::named(rng, &pool, other));
        same(first.as_bytes(), second.as_bytes(), &mut Joiner::new());
    }
}

#[test]
fn a_book_with_itself() {
    let rng = &mut Rng::new(1, 5);
    let pool = draw::pool(rng, 40);
    for limit in draw::LIMITS {
        for count in [0, 1, 7, 200] {
            let book = draw::book_in(draw::edition(rng), limit, &draw::named(rng, &pool, count));
            same(book.as_bytes(), book.as_bytes(), &mut Joiner::new());
            for choice in BOTH {
                let pairs = book.join(&book, choice).unwrap();
                let meet = |first: u32, second: u32| pairs.binary_search(&Pair { first, second }).is_ok();
                assert!(book.records().all(|record| meet(record.station, record.station)));
                assert!(pairs.iter().all(|pair| meet(pair.second, pair.first)));
            }
        }
    }
}

#[test]
fn pairs_come_once_and_in_order() {
    let rng = &mut Rng::new(1, 6);
    let pool = draw::pool(rng, 30);
    for (one, other) in draw::limits() {
        let edition = draw::edition(rng);
        let [first, second] = [one, other].map(|limit| draw::book_in(edition, limit, &draw::named(rng, &pool, 60)));
        for choice in BOTH {
            let pairs = first.join(&second, choice).unwrap();
            assert!(pairs.windows(2).all(|two| two[0] < two[1]));
            assert_eq!(pairs.len(), Case::new(first.as_bytes(), second.as_bytes(), choice).pairs());
            // Joined the other way round, the same stations meet.
            let mut turned: Vec<Pair> = second.join(&first, choice).unwrap();
            turned.iter_mut().for_each(|pair| *pair = Pair { first: pair.second, second: pair.first });
            turned.sort();
            assert_eq!(turned, pairs);
        }
    }
}

/// A book of these codes, primary and alternate alike, at stations from 0 on.
fn with_codes<'a>(limit: Option<u64>, codes: impl IntoIterator<Item = &'a [u8]>) -> Book {
    let mut writer = Writer::new(limit).unwrap();
    for (station, code) in codes.into_iter().enumerate() {
        writer.push(station as u64, b"", |_, _| (code, code)).unwrap();
    }
    Book::from_bytes(writer.into_bytes()).unwrap()
}

/// The pairs as two numbers each.
fn joined(first: &Book, second: &Book) -> Vec<(u32, u32)> {
    first.join(second, Choice::Primary).unwrap().iter().map(|pair| (pair.first, pair.second)).collect()
}

#[test]
fn a_short_code_counts_whole() {
    let codes: [&[u8]; 6] = [b"", b"A", b"AB", b"ABC", b"ABCD", b"ABCDE"];
    let four = with_codes(Some(4), codes);
    let none = with_codes(None, codes);
    // Each meets itself, and those that agree on four bytes meet each other.
    let met = [(0, 0), (1, 1), (2, 2), (3, 3), (4, 4), (4, 5), (5, 4), (5, 5)];
    assert_eq!(joined(&four, &none), met);
    assert_eq!(joined(&none, &four), met);
    assert_eq!(joined(&none, &none), [(0, 0), (1, 1), (2, 2), (3, 3), (4, 4), (5, 5)]);
    // A byte 0 at the end is a byte.
    let zeros: [&[u8]; 3] = [b"", b"\0", b"\0\0"];
    assert_eq!(joined(&with_codes(Some(4), zeros), &with_codes(Some(6), zeros)), [(0, 0), (1, 1), (2, 2)]);
}

/// The slot that the library has for a key in a book of so many records.
fn slot(key: &[u8], records: usize) -> u64 {
    key.iter().fold(0, |slot, byte| (slot * 16_777_619 + u64::from(*byte) + 1) % (1 << 32)) % (records as u64 + 1)
}

#[test]
fn a_crafted_book_changes_nothing() {
    // All codes of the book fall into one slot, and each stands in it twice.
    let records = 600;
    let codes: Vec<[u8; 3]> = (0..1 << 24_u32)
        .map(|code| [code as u8, (code >> 8) as u8, (code >> 16) as u8])
        .filter(|code| slot(code, records) == 7)
        .take(records / 2)
        .collect();
    let codes = || codes.iter().chain(&codes).map(|code| &code[..]);
    assert_eq!(codes().count(), records);
    let [crafted, first] = [None, Some(4)].map(|limit| with_codes(limit, codes()));
    same(first.as_bytes(), crafted.as_bytes(), &mut Joiner::new());
    assert_eq!(joined(&first, &crafted).len(), 2 * records);
}

#[test]
fn long_codes_that_differ_late() {
    let mut codes = vec![vec![b'A'; 100_000]; 6];
    codes[1][99_999] = b'B';
    codes[2].pop();
    codes[3][0] = b'B';
    codes[4][50_000] = 0;
    let codes: Vec<&[u8]> = codes.iter().map(Vec::as_slice).collect();
    for (one, other) in [(None, None), (Some(99_999), None), (Some(99_998), Some(100_000)), (Some(50_000), Some(50_001))] {
        let (first, second) = (with_codes(one, codes.iter().copied()), with_codes(other, codes.iter().copied()));
        let met = plain::join(first.as_bytes(), second.as_bytes(), false).unwrap();
        assert_eq!(joined(&first, &second), met);
    }
    assert_eq!(joined(&with_codes(None, codes.iter().copied()), &with_codes(None, [codes[5]])), [(0, 0), (5, 0)]);
}

#[test]
fn limits_at_their_ends() {
    let codes: [&[u8]; 4] = [b"AB", b"AC", b"AB", b""];
    let largest = Some((1 << 28) - 2);
    for limit in [largest, None, Some(2)] {
        let met = [(0, 0), (0, 2), (1, 1), (2, 0), (2, 2), (3, 3)];
        assert_eq!(joined(&with_codes(largest, codes), &with_codes(limit, codes)), met);
    }
    // Under the limit 0 all meet.
    assert_eq!(joined(&with_codes(largest, codes), &with_codes(Some(0), codes)).len(), 16);
}

#[test]
fn stations_at_their_ends() {
    let mut first = Book::new(Some(4)).unwrap();
    let mut second = Book::new(Some(6)).unwrap();
    for station in [0, (1 << 28) - 1] {
        first.add(station, "Weser").unwrap();
        second.add(station, "Weser").unwrap();
    }
    let last = (1 << 28) - 1;
    assert_eq!(joined(&first, &second), [(0, 0), (0, last), (last, 0), (last, last)]);
}
