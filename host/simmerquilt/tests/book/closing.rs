//! Closing a station: one byte, and every refusal.
use crate::draw;
use crate::witness::{closing, lent, number, same_reading, written};
use simmerquilt::book::STATION_END;
use words::Rng;

/// The places at which two rooms differ.
fn differ(one: &[u8], other: &[u8]) -> Vec<usize> {
    (0..one.len()).filter(|at| one[*at] != other[*at]).collect()
}

#[test]
fn a_close_changes_the_kind_and_no_other_byte() {
    let mut rng = Rng::new(21, 0);
    for _ in 0..600 {
        let count = 1 + rng.below(8);
        let list = draw::list_in(2, &mut rng, count, draw::name);
        let mut book = written(&list);
        for (station, _) in &list.records {
            let room = lent(&book, book.len() + rng.below(9));
            let closed = closing(&room, book.len(), *station);
            if list.closed.contains(station) {
                assert_eq!(closed, Err(11));
                continue;
            }
            let closed = closed.unwrap();
            let [at] = differ(&book, &closed)[..] else { panic!("{closed:?}") };
            assert_eq!((book[at], closed[at]), (1, 0));
            book = closed;
            same_reading(&book);
            // It is closed now.
            assert_eq!(closing(&lent(&book, room.len()), book.len(), *station), Err(11));
        }
        assert!(plain::read(&book).unwrap().1.iter().all(|record| !record.live));
    }
}

#[test]
fn a_station_that_is_not_there_is_not_closed() {
    let mut rng = Rng::new(22, 0);
    for _ in 0..600 {
        let count = rng.below(5);
        let list = draw::list_in(2, &mut rng, count, draw::short_name);
        let book = written(&list);
        let stations: Vec<u64> = list.records.iter().map(|(station, _)| *station).collect();
        for station in &stations {
            for other in [station + 1, station.wrapping_sub(1), station ^ 128, station ^ (1 << 21)] {
                if !stations.contains(&other) {
                    assert_eq!(closing(&book, book.len(), other), Err(11));
                }
            }
            // A number that four groups do not hold is no station, whatever its low groups are.
            for above in [STATION_END, 1 << 32, 1 << 63] {
                assert_eq!(closing(&book, book.len(), station + above), Err(11));
            }
        }
        for station in [STATION_END, u64::from(u32::MAX), u64::MAX - 1, u64::MAX] {
            assert_eq!(closing(&book, book.len(), station), Err(11));
        }
    }
}

#[test]
fn format_1_is_refused_at_its_number() {
    // A good book, and one with each fault behind the format.
    let books: [&[u8]; 10] = [
        b"\x01\x01\x05\x07\x01a\x01A\x01A",
        b"\x01\x02\x05",
        b"\x01",
        b"\x01\x00",
        b"\x01\x81\x00",
        b"\x01\x01\x80\x00",
        b"\x01\x01\x05\x07\x81\x08",
        b"\x01\x01\x05\x07\x01\x80",
        b"\x01\x01\x05\x07\x01a\x01A\x01",
        b"\x01\x01\x05\x07\x00\x00\x00\x07",
    ];
    for book in books {
        for station in [0, 7, u64::MAX] {
            for length in [book.len(), book.len() + 1, usize::MAX] {
                assert_eq!(closing(book, length, station), Err(7), "{book:?}");
            }
        }
    }
    // Where the number is not there, or not in its form, it is no format 1.
    for (book, fault) in [(&b""[..], 6), (b"\x81", 6), (b"\x81\x00", 5), (b"\x81\x01", 7), (b"\x00", 7), (b"\x03", 7)] {
        assert_eq!(closing(book, book.len(), 7), Err(fault), "{book:?}");
    }
}

#[test]
fn of_a_length_beyond_the_room_the_bytes_that_are_there_are_read() {
    let good = b"\x02\x02\x05\x01\x07\x01a\x01A\x01A\x00\x09\x00\x00\x00";
    for length in [good.len() + 1, good.len() + 100, usize::MAX] {
        // Also where no live station has the number.
        for station in [7, 9, 8, u64::MAX] {
            for room in 0..=good.len() {
                assert_eq!(closing(&good[..room], length, station), Err(6));
            }
            assert_eq!(closing(&[2, 2, 0, 1, 7, 2, b'a', 200], length, station), Err(2));
            assert_eq!(closing(&[2, 2, 0, 2], length, station), Err(7));
        }
    }
}

/// A fault behind the record is met before it is closed.
#[test]
fn the_whole_book_is_read_first() {
    let good = &b"\x02\x02\x05\x01\x07\x01a\x01A\x01A"[..];
    let faults: [(&[u8], u64); 8] = [
        (b"\x01\x08\x81\x08", 1),
        (b"\x01\x08\x01\x80", 2),
        (b"\x81\x00", 5),
        (b"\x01\x88\x00", 5),
        (b"\x00", 6),
        (b"\x02", 7),
        (b"\x80\x01", 7),
        (b"\x00\x07", 8),
    ];
    for (behind, fault) in faults {
        let book = [good, behind].concat();
        for station in [7, 8, u64::MAX] {
            assert_eq!(closing(&lent(&book, book.len() + 5), book.len(), station), Err(fault), "{book:?}");
        }
    }
    assert!(closing(good, good.len(), 7).is_ok());
}

#[test]
fn any_close_gets_the_plain_answer() {
    let mut rng = Rng::new(23, 0);
    let mut numbers = [0; 12];
    for _ in 0..60_000 {
        let (mut bytes, stations) = if rng.once_in(3) {
            (draw::shaped(&mut rng), vec![])
        } else {
            let (format, count) = (if rng.once_in(10) { 1 } else { 2 }, rng.below(5));
            let list = draw::list_in(format, &mut rng, count, draw::short_name);
            (written(&list), list.records.iter().map(|(station, _)| *station).collect())
        };
        if rng.once_in(6) && !bytes.is_empty() {
            let place = rng.below(bytes.len());
            bytes[place] = rng.byte();
        }
        let station =
            if stations.is_empty() || rng.once_in(4) { draw::number(&mut rng) } else { stations[rng.below(stations.len())] };
        let room = (bytes.len() + rng.below(9)).saturating_sub(rng.below(3));
        let length = match rng.below(20) {
            0 => rng.below(bytes.len() + 1),
            1 => room + 1 + rng.below(9),
            2 => usize::MAX - rng.below(2),
            _ => bytes.len(),
        };
        numbers[number(closing(&lent(&bytes, room), length, station)) as usize] += 1;
    }
    assert!([0, 1, 2, 5, 6, 7, 8, 11].iter().all(|number| numbers[*number] > 100), "{numbers:?}");
}
