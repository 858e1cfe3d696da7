//! The room of closed records: when it is used again, who counts then, and what stays where it was.
use crate::draw::{self, List};
use crate::witness::{self, adding, lent, live_length, same_reading, written};
use plain::Reader;
use simmerquilt::book::STATION_END;
use words::Rng;

/// Lists of format 2 with some records closed and some live, and each with a name to add.
fn lists(seed: u64, count: usize, name: fn(&mut Rng) -> Vec<u8>) -> impl Iterator<Item = (List, Vec<u8>)> {
    let mut rng = Rng::new(seed, 0);
    (0..count).map(move |_| {
        let records = 1 + rng.below(7);
        (draw::list_in(2, &mut rng, records, name), name(&mut rng))
    })
}

/// How many bytes this record has in a book as the list's.
fn record_length(list: &List, station: u64, name: &[u8]) -> usize {
    witness::record_length(list.format, list.edition, list.limit, station, name)
}

/// The bytes of each live record, in order.
fn live_records(book: &[u8]) -> Vec<&[u8]> {
    let (_, mut reader) = Reader::open(book).unwrap();
    let mut live = Vec::new();
    let mut start = reader.place();
    while let Some(record) = reader.next() {
        if record.unwrap().live {
            live.push(&book[start..reader.place()]);
        }
        start = reader.place();
    }
    live
}

#[test]
fn a_book_is_closed_up_exactly_where_it_does_not_fit_as_it_stands() {
    let mut closed_up = 0;
    for (list, name) in lists(41, 2000, draw::name) {
        let book = written(&list);
        let Some(station) = list.records.last().map(|(last, _)| last + 1).filter(|station| *station < STATION_END) else {
            continue;
        };
        let record = record_length(&list, station, &name);
        let stands = book.len() + record;
        for room in [stands, stands + 1, stands + 30] {
            let made = adding(&lent(&book, room), book.len(), station, &name).unwrap();
            assert!(made.starts_with(&book) && made.len() == stands);
        }
        // The live records and the new one fit from here on.
        let shut = live_length(&book) + record;
        for room in [stands - 1, book.len(), shut, shut.saturating_sub(1)] {
            let made = adding(&lent(&book, room), book.len(), station, &name);
            match made {
                _ if room < book.len() => assert_eq!(made, Err(6)),
                Ok(made) => {
                    assert!(room >= shut && made.len() == shut);
                    assert_eq!(live_records(&made)[..list.records.len() - list.closed.len()], live_records(&book));
                    same_reading(&made);
                    closed_up += 1;
                }
                Err(fault) => assert!(fault == 9 && room < shut),
            }
        }
    }
    assert!(closed_up > 1000, "{closed_up}");
}

#[test]
fn every_room_from_the_book_to_the_whole_need() {
    for (list, name) in lists(42, 300, draw::short_name) {
        let book = written(&list);
        let stations = list.records.iter().flat_map(|(station, _)| [*station, station + 1]);
        for station in stations.filter(|station| *station < STATION_END) {
            let stands = book.len() + record_length(&list, station, &name);
            for room in book.len()..stands + 2 {
                let _ = adding(&lent(&book, room), book.len(), station, &name);
            }
        }
    }
}

/// The answers for each station from 0 on, in a room that the book with the new record just fits as it stands, and with one byte less.
fn answers(book: &[u8], stations: u64) -> [Vec<u64>; 2] {
    [0, 1].map(|less| {
        let answer = |station| {
            // Kind, station, and three lengths, of which each is one byte here.
            let room = lent(book, book.len() + 5 - less);
            adding(&room, book.len(), station, b"").err().unwrap_or(0)
        };
        (0..stations).map(answer).collect()
    })
}

#[test]
fn closed_records_count_only_as_the_book_stands() {
    let book = |kinds: [u8; 3]| {
        let records = [1, 3, 5].iter().zip(kinds).flat_map(|(station, kind)| [kind, *station, 0, 0, 0]);
        [2, 2, 0].into_iter().chain(records).collect::<Vec<u8>>()
    };
    // All live: the order comes first, and then there is no room.
    assert_eq!(answers(&book([1, 1, 1]), 8), [vec![8, 8, 8, 8, 8, 8, 0, 0], vec![8, 8, 8, 8, 8, 8, 9, 9]]);
    // The last closed: from 4 on a station is above the live ones.
    assert_eq!(answers(&book([1, 1, 0]), 8), [vec![8, 8, 8, 8, 8, 8, 0, 0], vec![8, 8, 8, 8, 0, 0, 0, 0]]);
    assert_eq!(answers(&book([1, 0, 0]), 8), [vec![8, 8, 8, 8, 8, 8, 0, 0], vec![8, 8, 0, 0, 0, 0, 0, 0]]);
    // None before a live one makes a difference to the order.
    assert_eq!(answers(&book([0, 0, 1]), 8), [vec![8, 8, 8, 8, 8, 8, 0, 0], vec![8, 8, 8, 8, 8, 8, 0, 0]]);
    assert_eq!(answers(&book([0, 0, 0]), 8), [vec![8, 8, 8, 8, 8, 8, 0, 0], vec![0; 8]]);
}

#[test]
fn a_closed_station_may_come_again_in_its_own_room() {
    let book = b"\x02\x02\x05\x01\x07\x03Saj\x02SJ\x02S \x00\x09\x05Weser\x03ASR\x03FSR";
    let made = adding(book, book.len(), 9, b"Weser").unwrap();
    assert_eq!(made, b"\x02\x02\x05\x01\x07\x03Saj\x02SJ\x02S \x01\x09\x05Weser\x03ASR\x03FSR");
    // With room behind it, its number is taken.
    assert_eq!(adding(&lent(book, book.len() + 16), book.len(), 9, b"Weser"), Err(8));
}

#[test]
fn long_records_move_over_themselves() {
    // The live record is longer than the gap before it, so that it is moved onto a part of itself.
    let mut rng = Rng::new(43, 0);
    for gap in [0, 1, 2, 7, 60, 300, 1000] {
        for length in [1, 50, 900, 1024] {
            let mut name = |length: usize| -> Vec<u8> { (0..length).map(|_| b'A' + rng.below(26) as u8).collect() };
            let records = vec![(3, name(gap)), (4, name(length)), (5, name(gap)), (6, name(length))];
            for closed in [vec![3], vec![3, 5], vec![4], vec![4, 6], vec![3, 4, 5]] {
                let list = List { format: 2, edition: 2, limit: Some(4), records: records.clone(), closed };
                let book = written(&list);
                let record = record_length(&list, 300, b"Ayr");
                let shut = live_length(&book) + record;
                for room in [book.len(), book.len() + record - 1, shut] {
                    let made = adding(&lent(&book, room), book.len(), 300, b"Ayr");
                    let expected = if room < book.len() {
                        Err(6)
                    } else if room < shut {
                        Err(9)
                    } else {
                        Ok(if room < book.len() + record { shut } else { book.len() + record })
                    };
                    assert_eq!(made.map(|made| made.len()), expected);
                }
            }
        }
    }
}

#[test]
fn format_1_gives_nothing_back() {
    let mut rng = Rng::new(44, 0);
    for _ in 0..500 {
        let count = 1 + rng.below(6);
        let list = draw::list_in(1, &mut rng, count, draw::short_name);
        let book = written(&list);
        let last = list.records.last().unwrap().0;
        let name = draw::short_name(&mut rng);
        for station in [last, last + 1].into_iter().filter(|station| *station < STATION_END) {
            let record = record_length(&list, station, &name);
            for room in book.len()..book.len() + record + 2 {
                let made = adding(&lent(&book, room), book.len(), station, &name);
                let expected = match (station > last, room >= book.len() + record) {
                    (false, _) => Err(8),
                    (true, false) => Err(9),
                    (true, true) => Ok(book.len() + record),
                };
                assert_eq!(made.map(|made| made.len()), expected);
            }
        }
    }
}
