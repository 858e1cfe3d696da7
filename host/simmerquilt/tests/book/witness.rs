//! The library and the plain reader and writer, held against each other.
use crate::draw::List;
use plain::{Fault, Reader, Writer};
use simmerquilt::book::{self, Cursor, End};
use simmerquilt::{Book, BookRefusal, DoubleMetaphone, Edition};

/// The library's own codes, by the edition of the book: that they are right is shown elsewhere.
pub fn codes(name: &[u8], header: plain::Header) -> (String, String) {
    let edition = Edition::try_from(u64::from(header.edition)).expect("it is known");
    let encoder = DoubleMetaphone::new(header.limit().map(|limit| limit as usize)).in_edition(edition);
    let result = encoder.double_metaphone(name).expect("it is a name");
    (result.primary().to_string(), result.alternate().to_string())
}

/// A book of this format and edition without records, by the plain writer.
pub fn blank(format: u32, edition: u32, limit: Option<u64>) -> Vec<u8> {
    Writer::of(format, edition, limit).unwrap().into_bytes()
}

/// The list's book by the plain writer.
pub fn written(list: &List) -> Vec<u8> {
    let mut writer = Writer::of(list.format, list.edition, list.limit).unwrap();
    for (station, name) in &list.records {
        writer.push(*station, name, codes).unwrap();
    }
    let mut book = writer.into_bytes();
    for station in &list.closed {
        book = plain::close(&book, book.len() as u64, *station).unwrap();
    }
    book
}

/// The list's book by the library, which starts new ones alone; an older one goes on from a stored header.
pub fn made(list: &List) -> Book {
    let mut book = if (list.format, list.edition) == (plain::NEW_FORMAT, plain::NEW_EDITION) {
        Book::new(list.limit).unwrap()
    } else {
        Book::from_bytes(blank(list.format, list.edition, list.limit)).unwrap()
    };
    for (station, name) in &list.records {
        book.add(*station, name).unwrap();
    }
    for station in &list.closed {
        book.close(*station).unwrap();
    }
    book
}

pub fn same_record(got: simmerquilt::Record, expected: plain::Record) -> bool {
    (got.kind.is_live(), got.station, got.name, got.primary, got.alternate)
        == (expected.live, expected.station, expected.name, expected.primary, expected.alternate)
}

/// Asserts that both read the same in these bytes, whatever they are: header, counts, records, and the first fault.
pub fn same_reading(bytes: &[u8]) {
    same_whole(bytes);
    match (book::open(bytes), Reader::open(bytes)) {
        (Ok((header, cursor)), Ok((expected, reader))) => {
            assert!(same_header(header, expected), "{bytes:?}");
            let plain::Header { format, edition, .. } = expected;
            assert_eq!(cursor, Cursor { format, edition, place: reader.place(), floor: 0 }, "{bytes:?}");
            same_walk(bytes, cursor, reader);
        }
        (opened, expected) => {
            let expected = expected.map_or_else(|fault| fault, |_| 0);
            assert_eq!(opened.map_or_else(|refusal| refusal.number(), |_| 0), expected, "{bytes:?}");
        }
    }
}

fn same_header(got: book::Header, expected: plain::Header) -> bool {
    (got.format, got.edition, got.cut) == (expected.format, expected.edition, expected.cut)
}

fn same_whole(bytes: &[u8]) {
    match (book::read(bytes), plain::read(bytes)) {
        (Ok(whole), Ok((header, records))) => {
            let floor = records.last().map_or(0, |record| record.station + 1);
            let live = records.iter().filter(|record| record.live).count();
            assert!(same_header(whole.header, header), "{bytes:?}");
            assert_eq!((whole.records, whole.live), (records.len(), live), "{bytes:?}");
            assert_eq!(whole.end, End { length: bytes.len(), floor }, "{bytes:?}");
        }
        (whole, expected) => {
            let expected = expected.map_or_else(|fault| fault, |_| 0);
            assert_eq!(whole.map_or_else(|refusal| refusal.number(), |_| 0), expected, "{bytes:?}");
        }
    }
}

/// Goes through the records with the cursor up to the end or to the first fault.
pub fn same_walk(bytes: &[u8], mut cursor: Cursor, mut reader: Reader) {
    loop {
        match (book::next(bytes, cursor), reader.next()) {
            (Ok(None), None) => return,
            (Ok(Some((record, next))), Some(Ok(expected))) => {
                assert!(same_record(record, expected), "{bytes:?} at {cursor:?}");
                let behind = Cursor { place: reader.place(), floor: expected.station + 1, ..cursor };
                assert_eq!(next, behind, "{bytes:?}");
                cursor = next;
            }
            (Err(refusal), Some(Err(fault))) => return assert_eq!(refusal.number(), fault, "{bytes:?} at {cursor:?}"),
            (got, expected) => panic!("{got:?}, but {expected:?}: {bytes:?} at {cursor:?}"),
        }
    }
}

/// Asserts that a call on a room has the plain answer, and that the room now begins with the plain book and has no other byte changed,
/// under a refusal none at all. Gives the plain answer.
fn same_room(
    room: &[u8],
    lent: &[u8],
    got: Result<usize, BookRefusal>,
    expected: Result<Vec<u8>, Fault>,
    told: impl Fn() -> String,
) -> Result<Vec<u8>, Fault> {
    assert_eq!(got.map_err(BookRefusal::number), expected.as_ref().map(Vec::len).map_err(|fault| *fault), "{}", told());
    let book = expected.as_deref().unwrap_or_default();
    assert!(lent == [book, &room[book.len()..]].concat(), "{}: {lent:?}", told());
    expected
}

/// Asserts this of adding, and gives the book that is there then.
pub fn adding(room: &[u8], length: usize, station: u64, name: &[u8]) -> Result<Vec<u8>, Fault> {
    let expected = plain::add(room, length as u64, station, name, codes);
    let mut lent = room.to_vec();
    let got = book::add_in(&mut lent, length, station, name);
    same_room(room, &lent, got, expected, || format!("add {station}, {name:?} to {length} of {room:?}"))
}

/// The same of closing.
pub fn closing(room: &[u8], length: usize, station: u64) -> Result<Vec<u8>, Fault> {
    let expected = plain::close(room, length as u64, station);
    let mut lent = room.to_vec();
    let got = book::close_in(&mut lent, length, station).map(|()| length);
    same_room(room, &lent, got, expected, || format!("close {station} in {length} of {room:?}"))
}

/// The same of appending to an end, which need not be a good one.
pub fn appending(room: &[u8], header: book::Header, end: End, station: u64, name: &[u8]) -> Result<Vec<u8>, Fault> {
    let plain_header = plain::Header { format: header.format, edition: header.edition, cut: header.cut };
    let expected = plain::append(room, plain_header, (end.length as u64, end.floor), station, name, codes);
    let mut lent = room.to_vec();
    let got = book::append_in(&mut lent, header, end, station, name);
    if let Ok(End { floor, .. }) = got {
        assert_eq!(u64::from(floor), station + 1);
    }
    let got = got.map(|end| end.length);
    same_room(room, &lent, got, expected, || format!("append {station}, {name:?} at {end:?} to {room:?} of {header:?}"))
}

/// The number of an answer.
pub fn number<T>(answer: Result<T, Fault>) -> u64 {
    answer.err().unwrap_or(0)
}

/// Asserts that adding gives the plain answer and changes no other byte. Tells the number.
pub fn same_adding(room: &[u8], length: usize, station: u64, name: &[u8]) -> u64 {
    number(adding(room, length, station, name))
}

/// How long a good book is without its closed records.
pub fn live_length(book: &[u8]) -> usize {
    let (_, mut reader) = Reader::open(book).unwrap();
    let mut start = reader.place();
    let mut length = start;
    while let Some(record) = reader.next() {
        if record.unwrap().live {
            length += reader.place() - start;
        }
        start = reader.place();
    }
    length
}

/// How many bytes a record has in a book of such a header.
pub fn record_length(format: u32, edition: u32, limit: Option<u64>, station: u64, name: &[u8]) -> usize {
    let mut writer = Writer::of(format, edition, limit).unwrap();
    let header = writer.as_bytes().len();
    writer.push(station, name, codes).unwrap();
    writer.as_bytes().len() - header
}

/// What a room of this length holds before: no byte as its neighbours, so that none is moved unseen.
pub fn held(room: usize) -> Vec<u8> {
    (0..room).map(|at| (at as u8).wrapping_mul(37) ^ 0xee).collect()
}

/// The book, then bytes that are to be kept, up to a room of this length.
pub fn lent(book: &[u8], room: usize) -> Vec<u8> {
    let mut lent = held(room.max(book.len()));
    lent[..book.len()].copy_from_slice(book);
    lent.truncate(room);
    lent
}
