//! Starting a book and adding to it: refusals in their order, rooms of every length, and what is left alone.
use crate::draw;
use crate::witness::{blank, held, lent, made, same_adding, written};
use plain::Writer;
use simmerquilt::book::{self, End, Whole, HEADER_ROOM, RECORD_ROOM, STATION_END};
use simmerquilt::{Book, BookRefusal};
use words::Rng;

#[test]
fn starting_asks_for_the_cut_and_then_for_room() {
    let ends = [0, 1, 4, 126, 127, 128, 16_382, 16_383, 2_097_150, 2_097_151, STATION_END - 2];
    for limit in ends.map(Some).into_iter().chain([None]) {
        let expected = Writer::new(limit).unwrap().into_bytes();
        for length in 0..HEADER_ROOM + 3 {
            let mut room = held(length);
            let started = book::start_in(&mut room, limit);
            if length < expected.len() {
                assert_eq!((started, room), (Err(BookRefusal::RoomShort), held(length)));
            } else {
                assert_eq!((started, room), (Ok(expected.len()), lent(&expected, length)));
            }
        }
    }
    for limit in [STATION_END - 1, STATION_END, u64::MAX - 1, u64::MAX] {
        for length in [0, 3, HEADER_ROOM] {
            let mut room = held(length);
            assert_eq!(book::start_in(&mut room, Some(limit)), Err(BookRefusal::BadNumber));
            assert_eq!(room, held(length));
        }
        assert_eq!(Book::new(Some(limit)).unwrap_err(), BookRefusal::BadNumber);
    }
}

#[test]
fn a_new_book_carries_format_2_and_edition_2() {
    let mut room = [0; HEADER_ROOM];
    assert_eq!(book::start_in(&mut room, Some(4)), Ok(3));
    assert_eq!(room[..3], [2, 2, 5]);
    let book = Book::new(None).unwrap();
    assert_eq!((book.format(), book.edition()), (2, 2));
}

/// The record of "Van Chi" in a book of each format and edition, under limit 4.
const VAN_CHI: [(u32, u32, &[u8]); 4] = [
    (1, 1, b"\x0a\x07Van Chi\x03FNX\x03FNK"),
    (1, 2, b"\x0a\x07Van Chi\x03FNK\x03FNK"),
    (2, 1, b"\x01\x0a\x07Van Chi\x03FNX\x03FNK"),
    (2, 2, b"\x01\x0a\x07Van Chi\x03FNK\x03FNK"),
];

#[test]
fn a_book_is_added_to_under_its_own_format_and_edition() {
    for (format, edition, record) in VAN_CHI {
        let blank = blank(format, edition, Some(4));
        let expected = [&blank[..], record].concat();
        let mut added = lent(&blank, expected.len());
        assert_eq!(book::add_in(&mut added, blank.len(), 10, b"Van Chi"), Ok(expected.len()));
        assert_eq!(added, expected);

        let mut appended = lent(&blank, expected.len());
        let Whole { header, end, .. } = book::read(&blank).unwrap();
        assert_eq!((header.format, header.edition), (format, edition));
        let end = book::append_in(&mut appended, header, end, 10, b"Van Chi");
        assert_eq!(end, Ok(End { length: expected.len(), floor: 11 }));
        assert_eq!(appended, expected);

        let mut grown = Book::from_bytes(blank).unwrap();
        grown.add(10, "Van Chi").unwrap();
        assert_eq!((grown.format(), grown.edition(), grown.as_bytes()), (format, edition, &expected[..]));
    }
}

#[test]
fn rooms_of_every_length_around_the_need() {
    let mut rng = Rng::new(11, 0);
    for _ in 0..1500 {
        let count = rng.below(6);
        let mut list = draw::list(&mut rng, count, draw::name);
        // Closed records would make room.
        list.closed.clear();
        let bytes = written(&list);
        let station = list.records.last().map_or(0, |(station, _)| station + 1);
        let name = draw::name(&mut rng);
        let mut grown = made(&list);
        if grown.add(station, &name).is_err() {
            // The last station is the largest there is.
            continue;
        }
        let need = grown.as_bytes().len();
        for (room, expected) in [(need - 1, 9), (need, 0), (need + 1, 0), (need + 40, 0)] {
            assert_eq!(same_adding(&lent(&bytes, room), bytes.len(), station, &name), expected);
        }
    }
}

#[test]
fn a_short_room_has_every_length() {
    let mut rng = Rng::new(12, 0);
    for _ in 0..40 {
        let list = draw::list(&mut rng, 4, draw::short_name);
        let bytes = written(&list);
        for room in 0..bytes.len() + 60 {
            same_adding(&lent(&bytes, room), bytes.len(), STATION_END - 1, b"Schermerhorn");
        }
    }
}

/// Every set of conditions at once: the first in order is given.
#[test]
fn a_record_is_tested_for_1_2_5_8_9_behind_the_book() {
    let good = b"\x01\x01\x05\x07\x01a\x01A\x01A";
    let mut long = vec![b'b'; 1025];
    let damages: [(u64, &[u8]); 17] = [
        (0, good),
        (0, b"\x01\x02\x05\x07\x01a\x01A\x01A"),
        (0, b"\x02\x01\x05\x01\x07\x01a\x01A\x01A"),
        (0, b"\x02\x02\x05\x01\x07\x01a\x01A\x01A"),
        (2, b"\x02\x02\x05\x00\x07\x01\x80"),
        (5, b"\x02\x02\x05\x81\x00"),
        (6, b"\x02\x02\x05\x00\x07\x01a\x01A\x01"),
        (7, b"\x02\x02\x05\x02\x07\x01a\x01A\x01A"),
        (7, b"\x03\x02\x05"),
        (8, b"\x02\x02\x05\x00\x07\x00\x00\x00\x01\x07"),
        (1, b"\x01\x01\x05\x07\x81\x08"),
        (2, b"\x01\x01\x05\x07\x01\x80"),
        (5, b"\x01\x01\x05\x87\x00"),
        (6, b"\x01\x01\x05\x07\x01a\x01A\x01"),
        (7, b"\x01\x03\x05"),
        (7, b"\x01\x00\x05"),
        (8, b"\x01\x01\x05\x07\x00\x00\x00\x07"),
    ];
    for (damage, book) in damages {
        for conditions in 0..32 {
            let holds = |condition: u32| conditions >> condition & 1 == 1;
            long[9] = if holds(1) { 200 } else { b'b' };
            let name = if holds(0) { &long[..] } else { &long[..20] };
            let station = match (holds(2), holds(3)) {
                (true, false) => STATION_END,
                (true, true) => u64::MAX,
                (false, true) => 7,
                (false, false) => 8,
            };
            let room = if holds(4) { book.len() + 3 } else { book.len() + RECORD_ROOM };
            let first = [1, 2, 5, 8, 9].into_iter().zip(0..).find(|(_, condition)| holds(*condition));
            let expected = if damage == 0 { first.map_or(0, |(number, _)| number) } else { damage };
            assert_eq!(same_adding(&lent(book, room), book.len(), station, name), expected, "{damage}, {conditions}");
        }
    }
}

#[test]
fn any_addition_gets_the_plain_answer() {
    let mut rng = Rng::new(13, 0);
    let mut numbers = [0; 10];
    for _ in 0..60_000 {
        let mut bytes = if rng.once_in(3) {
            draw::shaped(&mut rng)
        } else {
            let count = rng.below(5);
            written(&draw::list(&mut rng, count, draw::short_name))
        };
        if rng.once_in(8) && !bytes.is_empty() {
            let place = rng.below(bytes.len());
            bytes[place] = rng.byte();
        }
        let station = match rng.below(12) {
            0 => STATION_END + rng.below(2) as u64,
            1 => rng.number(),
            2..=6 => STATION_END - 1 - rng.below(2) as u64,
            _ => draw::number(&mut rng),
        };
        let mut name = if rng.once_in(30) { vec![b'a'; 1024 + rng.below(3)] } else { draw::short_name(&mut rng) };
        if rng.once_in(10) {
            name.push(rng.byte());
        }
        let room = (bytes.len() + rng.below(40)).saturating_sub(rng.below(4));
        let room = if rng.once_in(8) { rng.below(room + 1) } else { room };
        let length = match rng.below(20) {
            0 => rng.below(bytes.len() + 1),
            1 => room + 1 + rng.below(9),
            2 => usize::MAX - rng.below(2),
            _ => bytes.len(),
        };
        numbers[same_adding(&lent(&bytes, room), length, station, &name) as usize] += 1;
    }
    assert!([0, 1, 2, 5, 6, 7, 8, 9].iter().all(|number| numbers[*number] > 300), "{numbers:?}");
}

#[test]
fn of_a_length_beyond_the_room_the_bytes_that_are_there_are_read() {
    let good = b"\x01\x01\x05\x07\x01a\x01A\x01A";
    for length in [good.len() + 1, good.len() + 100, usize::MAX] {
        // Also where the record would be refused, or the room too short.
        for (station, name) in [(8, &b"b"[..]), (7, b"\x80"), (u64::MAX, &[200; 1025])] {
            assert_eq!(same_adding(good, length, station, name), 6);
            assert_eq!(same_adding(&good[..3], length, station, name), 6);
            assert_eq!(same_adding(&good[..5], length, station, name), 6);
            assert_eq!(same_adding(&[], length, station, name), 6);
            assert_eq!(same_adding(&[1, 1, 0, 7, 2, b'a', 200], length, station, name), 2);
            assert_eq!(same_adding(&[3], length, station, name), 7);
            assert_eq!(same_adding(&[2, 2, 0, 0, 7, 0, 0, 0], length, station, name), 6);
            assert_eq!(same_adding(&[2, 2, 0, 0, 7, 0, 0, 0, 2], length, station, name), 7);
        }
    }
}
