//! Closed records are skipped on both sides, formats are mixed, and the scratch goes by live records.
use crate::draw;
use crate::names::by_names;
use crate::witness::{same, Case, BOTH};
use simmerquilt::join::scratch_words;
use simmerquilt::{Book, Choice, JoinRefusal, Joiner, Pair};
use words::Rng;

const SEEDS: u64 = 20;

/// Whether a book has a live station of this number.
fn live(book: &Book, station: u32) -> bool {
    book.live_records().any(|record| record.station == station)
}

#[test]
fn books_with_closed_records_at_all_pairs_of_cuts() {
    let mut joiner = Joiner::new();
    for seed in 0..SEEDS {
        let rng = &mut Rng::new(seed, 21);
        let pool = draw::pool(rng, 30);
        for (one, other) in draw::limits() {
            let edition = draw::edition(rng);
            let [first, second] = [one, other].map(|limit| {
                let (format, count) = (draw::format(rng), draw::size(rng));
                let book = draw::book_of(format, edition, limit, &draw::named(rng, &pool, count));
                if format == 1 {
                    book
                } else {
                    draw::with_closed(rng, book)
                }
            });
            same(first.as_bytes(), second.as_bytes(), &mut joiner);
            for choice in BOTH {
                assert_eq!(first.join(&second, choice).unwrap(), by_names(&first, &second, choice));
            }
        }
    }
}

#[test]
fn a_close_takes_away_the_pairs_of_its_station_alone() {
    let rng = &mut Rng::new(1, 22);
    let pool = draw::pool(rng, 12);
    for (one, other) in draw::limits() {
        let [open, others] = [one, other].map(|limit| draw::book(limit, &draw::named(rng, &pool, 30)));
        let (first, second) = (draw::with_closed(rng, open.clone()), draw::with_closed(rng, others.clone()));
        for choice in BOTH {
            let all = open.join(&others, choice).unwrap();
            let left = all.iter().copied().filter(|pair| live(&first, pair.first) && live(&second, pair.second));
            assert_eq!(first.join(&second, choice).unwrap(), left.collect::<Vec<Pair>>());
        }
    }
}

#[test]
fn the_same_records_meet_in_either_format() {
    let rng = &mut Rng::new(1, 23);
    let joiner = &mut Joiner::new();
    let pool = draw::pool(rng, 20);
    for (one, other) in draw::limits() {
        let edition = draw::edition(rng);
        let (ours, theirs) = (draw::named(rng, &pool, 25), draw::named(rng, &pool, 25));
        let first = plain::FORMATS.map(|format| draw::book_of(format, edition, one, &ours));
        let second = plain::FORMATS.map(|format| draw::book_of(format, edition, other, &theirs));
        let pairs = BOTH.map(|choice| first[0].join(&second[0], choice).unwrap());
        for first in &first {
            for second in &second {
                same(first.as_bytes(), second.as_bytes(), joiner);
                assert_eq!(BOTH.map(|choice| first.join(second, choice).unwrap()), pairs);
            }
        }
    }
}

#[test]
fn scratch_goes_by_live_records() {
    let mut first = draw::book(Some(4), &[(3, "Weser".into()), (4, "Oder".into()), (5, "Weser".into())]);
    let mut second = first.clone();
    first.close(3).unwrap();
    second.close(4).unwrap();
    second.close(5).unwrap();
    let need = scratch_words(2, 1);
    assert_eq!(need, 3 * 2 + 8 + 1);
    let mut room = [Pair::default(); 1];
    let mut joined = |scratch: usize| {
        let lent = &mut vec![7; scratch];
        let answer = simmerquilt::join::join_in(first.as_bytes(), second.as_bytes(), Choice::Primary, lent, &mut room);
        answer.map(|count| room[..count].to_vec())
    };
    assert_eq!(joined(need - 1), Err(JoinRefusal::RoomShort));
    assert_eq!(joined(need), Ok(vec![Pair { first: 5, second: 3 }]));
    for choice in BOTH {
        for scratch in 0..need + 3 {
            for room in 0..3 {
                Case::new(first.as_bytes(), second.as_bytes(), choice).joins(scratch, room);
            }
            Case::new(first.as_bytes(), second.as_bytes(), choice).counts(scratch, u64::MAX);
        }
    }
}

#[test]
fn books_whose_stations_are_all_closed() {
    let rng = &mut Rng::new(1, 24);
    let joiner = &mut Joiner::new();
    let pool = draw::pool(rng, 4);
    for count in [1, 2, 50] {
        let open = draw::book(Some(4), &draw::named(rng, &pool, count));
        let mut closed = open.clone();
        for record in &open {
            closed.close(record.station.into()).unwrap();
        }
        assert_eq!((closed.len(), closed.live()), (count, 0));
        for (first, second, words) in
            [(&closed, &open, 8 * count + 1), (&open, &closed, 3 * count + 1), (&closed, &closed, 1)]
        {
            same(first.as_bytes(), second.as_bytes(), joiner);
            for choice in BOTH {
                assert_eq!(first.join(second, choice), Ok(vec![]));
                assert_eq!(Case::new(first.as_bytes(), second.as_bytes(), choice).need(), words);
            }
        }
    }
}

#[test]
fn a_book_joins_as_it_does_closed_up() {
    let rng = &mut Rng::new(1, 25);
    let pool = draw::pool(rng, 10);
    let other = draw::book(Some(6), &draw::named(rng, &pool, 20));
    for _ in 0..30 {
        let records = draw::named(rng, &pool, 20);
        let book = draw::with_closed(rng, draw::book(Some(4), &records));
        let left: Vec<_> = records.into_iter().filter(|(station, _)| live(&book, *station as u32)).collect();
        let shut = draw::book(Some(4), &left);
        for choice in BOTH {
            assert_eq!(book.join(&other, choice), shut.join(&other, choice));
            assert_eq!(other.join(&book, choice), other.join(&shut, choice));
        }
    }
}
