//! The book that keeps its own room.
use crate::draw;
use crate::witness::{codes, held, record_length};
use plain::Writer;
use simmerquilt::book::{RECORD_ROOM, STATION_END};
use simmerquilt::{Book, BookRefusal, Kind};
use words::Rng;

#[test]
fn a_book_grows_by_itself() {
    let mut book = Book::new(Some(4)).unwrap();
    let mut writer = Writer::new(Some(4)).unwrap();
    for station in 0..20_000 {
        let name = format!("Gauge {station}");
        book.add(station * 13, &name).unwrap();
        writer.push(station * 13, name.as_bytes(), codes).unwrap();
    }
    assert_eq!(book.as_bytes(), writer.as_bytes());
    assert_eq!(book.len(), 20_000);
}

#[test]
fn the_longest_record_fits_behind_any_book() {
    // K, then X and Z in turn: the alternate code reaches 2,047 bytes.
    let name: Vec<u8> = std::iter::once(b'K').chain(b"XZ".iter().copied().cycle()).take(1024).collect();
    let mut book = Book::new(None).unwrap();
    book.add(STATION_END - 1, &name).unwrap();
    let record = book.records().next().unwrap();
    assert_eq!(record.alternate.len(), 2047);
    assert_eq!(book.as_bytes().len(), 3 + 1 + 4 + 2 + 1024 + 2 + record.primary.len() + 2 + 2047);
    assert!(book.as_bytes().len() <= 3 + RECORD_ROOM);
}

#[test]
fn a_refused_record_leaves_the_book_as_it_is() {
    let mut book = Book::new(Some(4)).unwrap();
    book.add(7, "Villa Bridge").unwrap();
    let before = book.clone();
    let cases: [(u64, &[u8], BookRefusal); 5] = [
        (8, &[b'a'; 1025], BookRefusal::NameTooLong),
        (8, b"Gar\xe7on", BookRefusal::NameNotAscii),
        (STATION_END, b"a", BookRefusal::BadNumber),
        (7, b"a", BookRefusal::NotRising),
        (0, b"a", BookRefusal::NotRising),
    ];
    for (station, name, refusal) in cases {
        assert_eq!(book.add(station, name), Err(refusal));
        assert_eq!((&book, book.len()), (&before, 1));
    }
    book.add(8, "a").unwrap();
    assert_eq!(book.len(), 2);
}

#[test]
fn names_are_stored_as_they_are_given() {
    let mut book = Book::new(Some(4)).unwrap();
    book.add(0, "  jumped\r\n").unwrap();
    book.add(1, "").unwrap();
    let records: Vec<_> = book.records().map(|record| (record.name, record.primary, record.alternate)).collect();
    assert_eq!(records, [(&b"  jumped\r\n"[..], &b"JMPT"[..], &b"AMPT"[..]), (b"", b"", b"")]);
}

#[test]
fn refusals_read_well() {
    assert_eq!(BookRefusal::NameTooLong.to_string(), "the name is over 1024 bytes");
    assert_eq!(BookRefusal::NotRising.to_string(), "the station is not above the one before");
    assert_eq!(
        BookRefusal::NotLive.to_string(),
        "no live station has this number: it is not in the book, or closed already"
    );
    assert_eq!(BookRefusal::NotLive.number(), 11);
}

/// A book of so many gauges at even stations, with no room behind it, as it comes from a file.
fn full(records: u64) -> Book {
    let mut book = Book::new(Some(4)).unwrap();
    for station in 0..records {
        book.add(2 * station, format!("Gauge {station}")).unwrap();
    }
    Book::from_bytes(book.as_bytes().to_vec()).unwrap()
}

#[test]
fn a_book_closes_up_before_it_grows() {
    let mut book = full(100);
    let (length, at) = (book.as_bytes().len(), book.as_bytes().as_ptr());
    for station in [0, 40, 198] {
        book.close(station).unwrap();
    }
    assert_eq!((book.len(), book.live(), book.as_bytes().len()), (100, 97, length));
    book.add(197, "Ayr").unwrap();
    assert!(book.as_bytes().len() < length);
    assert_eq!((book.len(), book.live(), book.as_bytes().as_ptr()), (98, 98, at));
    let stations = (1..99).filter(|gauge| *gauge != 20).map(|gauge| 2 * gauge).chain([197]);
    assert!(book.live_records().map(|record| record.station).eq(stations));
    assert_eq!(book.records().len(), 98);
    assert_eq!(book.into_bytes().capacity(), length);
}

#[test]
fn a_book_whose_closed_records_are_too_short_grows() {
    let mut book = full(100);
    let length = book.as_bytes().len();
    book.close(40).unwrap();
    // A long name does not fit in the room of a short one, so that the closed one stays, and counts.
    book.add(300, [b'b'; 500]).unwrap();
    assert!(book.as_bytes().len() > length);
    assert_eq!((book.len(), book.live()), (101, 100));
    assert_eq!(book.records().nth(20).unwrap().kind, Kind::Closed);
    assert_eq!(book.add(300, "Ayr"), Err(BookRefusal::NotRising));
}

#[test]
fn the_number_of_a_closed_station_counts_while_there_is_room() {
    let mut book = full(100);
    book.add(1000, "Ayr").unwrap();
    book.add(1001, "Saj").unwrap();
    book.close(1001).unwrap();
    // It grew for the first, and has room now.
    assert_eq!(book.add(1001, "Saj"), Err(BookRefusal::NotRising));
    book.add(1002, "Saj").unwrap();
    assert_eq!((book.len(), book.live()), (103, 102));
    // In no room but its own, a book that ends with a closed station takes its number again.
    book.close(1002).unwrap();
    let mut stored = Book::from_bytes(book.as_bytes().to_vec()).unwrap();
    stored.add(1001, "Saj").unwrap();
    assert_eq!((stored.len(), stored.live()), (102, 102));
    assert_eq!(stored.add(1001, "Saj"), Err(BookRefusal::NotRising));
}

#[test]
fn a_refused_close_leaves_the_book_as_it_is() {
    let mut book = full(3);
    book.close(2).unwrap();
    let before = book.clone();
    for station in [1, 2, 5, STATION_END, STATION_END + 4, u64::MAX] {
        assert_eq!(book.close(station), Err(BookRefusal::NotLive));
        assert_eq!((&book, book.live()), (&before, 2));
    }
    let mut old = Book::from_bytes(b"\x01\x02\x05\x07\x01a\x01A\x01A".to_vec()).unwrap();
    for station in [7, 8, u64::MAX] {
        assert_eq!(old.close(station), Err(BookRefusal::Unknown));
        assert_eq!((old.len(), old.live(), old.as_bytes()[0]), (1, 1, 1));
    }
}

/// What adding makes of a book in a room that just has it with the new record, and in one of a byte less: as it stands, and closed up.
fn either(book: &Book, station: u64, name: &[u8]) -> [Result<Vec<u8>, u64>; 2] {
    let bytes = book.as_bytes();
    let record = record_length(book.format(), book.edition(), book.limit(), station, name);
    [record, record - 1].map(|more| plain::add(&[bytes, &held(more)].concat(), bytes.len() as u64, station, name, codes))
}

/// A book's room is its own affair, so that an addition may find it as it stands or close it up; but what it then makes of it is plain.
#[test]
fn a_book_lives_as_a_plain_one_does() {
    let mut rng = Rng::new(71, 0);
    let (mut stood, mut closed_up) = (0, 0);
    for _ in 0..400 {
        let format = draw::format(&mut rng);
        let header = Writer::of(format, draw::edition(&mut rng), draw::limit(&mut rng)).unwrap().into_bytes();
        let mut book = Book::from_bytes(header).unwrap();
        for _ in 0..60 {
            let before = book.as_bytes().to_vec();
            let stations: Vec<u64> = book.records().map(|record| record.station.into()).collect();
            let station = stations.get(rng.below(stations.len() + 2)).copied().unwrap_or(rng.below(90) as u64);
            if rng.once_in(2) {
                let answer = book.close(station).map_err(BookRefusal::number);
                let expected = plain::close(&before, before.len() as u64, station);
                assert_eq!(answer, expected.as_ref().map(|_| ()).map_err(|fault| *fault));
                assert_eq!(book.as_bytes(), expected.unwrap_or(before));
            } else {
                let (station, name) = (station + rng.below(3) as u64, draw::short_name(&mut rng));
                let [stands, shut] = either(&book, station, &name);
                let got = book.add(station, &name).map_err(BookRefusal::number).map(|()| book.as_bytes().to_vec());
                assert!(got == stands || got.is_ok() && got == shut, "{station}, {name:?} to {before:?}: {got:?}");
                assert!(got.is_ok() || book.as_bytes() == before);
                stood += usize::from(got == stands);
                closed_up += usize::from(got != stands);
            }
            // What it tells of itself is what a reader finds.
            let (_, records) = plain::read(book.as_bytes()).unwrap();
            let live = records.iter().filter(|record| record.live).count();
            assert_eq!((book.len(), book.live(), book.records().len()), (records.len(), live, records.len()));
            if rng.once_in(12) {
                book = Book::from_bytes(book.as_bytes().to_vec()).unwrap();
            }
        }
    }
    assert!(stood > 1000 && closed_up > 100, "{stood}, {closed_up}");
}
