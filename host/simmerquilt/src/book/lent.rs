//! The library's own seven calls, on bytes that the caller keeps. Nothing is allocated.
use super::refusal::BookRefusal;
use crate::face;

/// A room of this length is never too short for a new book.
pub const HEADER_ROOM: usize = 6;

/// So many bytes behind a book are never too few for one more record.
pub const RECORD_ROOM: usize = 5129;

/// The first number that is no station.
pub const STATION_END: u64 = 1 << 28;

/// What stands in front of the records.
#[derive(Clone, Copy, Debug, PartialEq, Eq, Hash)]
pub struct Header {
    /// How records are laid out: 2 in a new book, 1 or 2 in one that is read. In format 1 they have no kind and are all live.
    pub format: u32,
    /// Which edition of the letter rules makes the codes: 2 in a new book, 1 or 2 in one that is read.
    pub edition: u32,
    /// 0 for no limit, else the limit plus 1.
    pub cut: u32,
}

impl Header {
    /// The most bytes that a code may have, or none for any number of them.
    pub fn limit(&self) -> Option<u64> {
        u64::from(self.cut).checked_sub(1)
    }
}

/// Where a record is looked for.
#[derive(Clone, Copy, Debug, PartialEq, Eq, Hash)]
pub struct Cursor {
    /// The book's format.
    pub format: u32,
    /// The book's edition.
    pub edition: u32,
    /// Where it begins.
    pub place: usize,
    /// The least station that it may have.
    pub floor: u32,
}

/// The end of a book that is known to be good, where it may be gone on.
#[derive(Clone, Copy, Debug, PartialEq, Eq, Hash)]
pub struct End {
    /// How many bytes the book has.
    pub length: usize,
    /// The least station that a further record may have: one above the last, be that live or closed.
    pub floor: u32,
}

/// What [`read`] tells of a book.
#[derive(Clone, Copy, Debug, PartialEq, Eq, Hash)]
pub struct Whole {
    /// Its header.
    pub header: Header,
    /// How many records it has, closed ones too.
    pub records: usize,
    /// How many of them are live.
    pub live: usize,
    /// Where it may be gone on.
    pub end: End,
}

/// Whether a record stands for a station that is there.
#[derive(Clone, Copy, Debug, PartialEq, Eq, Hash)]
pub enum Kind {
    /// It does. In a book of format 1 all do.
    Live,
    /// The station was closed; its record is in the book until its room is needed.
    Closed,
}

impl Kind {
    /// Whether it is [`Kind::Live`].
    pub const fn is_live(self) -> bool {
        matches!(self, Kind::Live)
    }
}

/// A station with its name and codes, as they lie in the book.
#[derive(Clone, Copy, Debug, PartialEq, Eq, Hash)]
pub struct Record<'a> {
    /// Live or closed.
    pub kind: Kind,
    /// The station's number.
    pub station: u32,
    /// Its name as it was given, untrimmed.
    pub name: &'a [u8],
    /// The primary code as it is stored.
    pub primary: &'a [u8],
    /// The alternate code as it is stored.
    pub alternate: &'a [u8],
}

/// The answer, or the refusal that its first number says; the others are then 0.
#[inline]
fn accepted<const N: usize>(answer: [u64; N]) -> Result<[u64; N], BookRefusal> {
    match BookRefusal::numbered(answer[0]) {
        None => Ok(answer),
        Some(refusal) => {
            debug_assert!(answer[1..].iter().all(|number| *number == 0), "{answer:?}");
            Err(refusal)
        }
    }
}

fn header(format: u64, edition: u64, cut: u64) -> Header {
    Header { format: format as u32, edition: edition as u32, cut: cut as u32 }
}

/// Writes a book without records to the front of a room and tells its length: 5, then 9. A new book carries format 2 and edition 2.
///
/// ```
/// use simmerquilt::book;
///
/// let mut room = [0; 32];
/// let length = book::start_in(&mut room, Some(4))?;
/// let length = book::add_in(&mut room, length, 7, b"jumped")?;
/// assert_eq!(&room[..length], b"\x02\x02\x05\x01\x07\x06jumped\x04JMPT\x04AMPT");
///
/// let (header, cursor) = book::open(&room[..length])?;
/// let (record, _) = book::next(&room[..length], cursor)?.expect("there is one");
/// assert_eq!((header.limit(), record.station, record.primary), (Some(4), 7, &b"JMPT"[..]));
/// # Ok::<(), simmerquilt::BookRefusal>(())
/// ```
#[inline]
pub fn start_in(room: &mut [u8], limit: Option<u64>) -> Result<usize, BookRefusal> {
    let [_, length] = accepted(face::book_start(room, limit))?;
    Ok(length as usize)
}

/// Reads a book's header and tells where its first record is looked for: 5, 6 or 7.
#[inline]
pub fn open(book: &[u8]) -> Result<(Header, Cursor), BookRefusal> {
    let [_, format, edition, cut, place, floor] = accepted(face::book_open(book))?;
    let header = header(format, edition, cut);
    let cursor = Cursor { format: header.format, edition: header.edition, place: place as usize, floor: floor as u32 };
    Ok((header, cursor))
}

/// The record at a cursor, live or closed, and the cursor of the record behind it; `None` at the end of the book and past it. 7 for a
/// cursor of a format or an edition that is not known, also there; then 1, 2 or 5 to 8.
#[inline]
pub fn next(book: &[u8], cursor: Cursor) -> Result<Option<(Record<'_>, Cursor)>, BookRefusal> {
    let Cursor { format, edition, place, floor } = cursor;
    let answer = accepted(face::book_next(book, format, edition, place as u64, floor))?;
    let [_, found, station, name, name_length, primary, primary_length, alternate, alternate_length, place, floor, kind] =
        answer;
    if found == 0 {
        debug_assert_eq!(answer, [0; 12]);
        return Ok(None);
    }
    debug_assert!(kind <= 1, "{answer:?}");
    let text = |start: u64, length: u64| &book[start as usize..][..length as usize];
    let record = Record {
        kind: if kind == 1 { Kind::Live } else { Kind::Closed },
        station: station as u32,
        name: text(name, name_length),
        primary: text(primary, primary_length),
        alternate: text(alternate, alternate_length),
    };
    Ok(Some((record, Cursor { place: place as usize, floor: floor as u32, ..cursor })))
}

/// Reads a whole book: 1, 2 or 5 to 8.
#[inline]
pub fn read(book: &[u8]) -> Result<Whole, BookRefusal> {
    let [_, format, edition, cut, records, floor, live] = accepted(face::book_read(book))?;
    let end = End { length: book.len(), floor: floor as u32 };
    Ok(Whole { header: header(format, edition, cut), records: records as usize, live: live as usize, end })
}

/// Adds a record to the book in the first `length` bytes of a room and tells the new length. Its codes are made by the edition and under
/// the cut of the book's header. The book is read first, and its fault is
/// given; then the record is tested for 1, 2, 5, 8 and 9. Of a length beyond the room the bytes that are there are read, and if they
/// show no fault it is 6. A refusal writes nothing; bytes behind the new end keep what they held.
///
/// Where the record fits behind the book, that stays as it stands, and 8 counts every record. Where it does not, 8 counts live records
/// only, and 9 says that these do not fit with the new one; else the book is closed up first, closed records are gone from it, and the new
/// length may be less than the old.
///
/// ```
/// use simmerquilt::{book, BookRefusal};
///
/// let mut room = [0; 32];
/// let mut length = book::start_in(&mut room, Some(4))?;
/// for (station, name) in [(7, "Villa"), (9, "Saj")] {
///     length = book::add_in(&mut room, length, station, name.as_bytes())?;
/// }
/// assert_eq!((length, book::add_in(&mut room, length, 12, b"Weser")), (28, Err(BookRefusal::RoomShort)));
///
/// // The room of one that closes is used again.
/// book::close_in(&mut room, length, 7)?;
/// let length = book::add_in(&mut room, length, 12, b"Weser")?;
/// assert_eq!(&room[..length], b"\x02\x02\x05\x01\x09\x03Saj\x02SJ\x02S \x01\x0c\x05Weser\x03ASR\x03FSR");
/// # Ok::<(), BookRefusal>(())
/// ```
#[inline]
pub fn add_in(room: &mut [u8], length: usize, station: u64, name: &[u8]) -> Result<usize, BookRefusal> {
    let [_, length] = accepted(face::book_add(room, length as u64, station, name))?;
    Ok(length as usize)
}

/// Adds a record as [`add_in`] does, but goes on from a known good end and does not read the book again: header and end are those
/// that [`read`] told of these bytes, or the append before. 7, then 6 for an end beyond the room, then 1, 2, 5, 8 and 9.
///
/// It never closes up. In format 2 a record that does not fit behind the end is 9, and 8 is not asked then: closed records may give room
/// back, and [`add_in`], which reads the book, uses it and has the last word on both.
///
/// An end that is told wrong makes a book with faults, and nothing worse.
///
/// ```
/// use simmerquilt::book;
///
/// let mut room = [0; 64];
/// let length = book::start_in(&mut room, None)?;
/// let book::Whole { header, mut end, .. } = book::read(&room[..length])?;
/// for (station, name) in [(7, "Villa Bridge"), (9, "Saj")] {
///     end = book::append_in(&mut room, header, end, station, name.as_bytes())?;
/// }
/// assert_eq!(book::read(&room[..end.length])?.records, 2);
/// # Ok::<(), simmerquilt::BookRefusal>(())
/// ```
#[inline]
pub fn append_in(room: &mut [u8], header: Header, end: End, station: u64, name: &[u8]) -> Result<End, BookRefusal> {
    let Header { format, edition, cut } = header;
    let answer = face::book_append(room, [format, edition, cut], end.length as u64, end.floor, station, name);
    let [_, length, floor] = accepted(answer)?;
    Ok(End { length: length as usize, floor: floor as u32 })
}

/// Closes a station of the book in the first `length` bytes of a room: the kind of its live record, which is one byte, becomes 0, and all
/// else stays as it is. The book is read first as [`add_in`] reads it, and its fault is given, or 7 for one of format 1, whatever is
/// behind that; then 11 where no live record has this station.
///
/// ```
/// use simmerquilt::{book, BookRefusal};
///
/// let mut room = *b"\x02\x02\x05\x01\x07\x06jumped\x04JMPT\x04AMPT";
/// let length = room.len();
/// book::close_in(&mut room, length, 7)?;
/// assert_eq!(&room, b"\x02\x02\x05\x00\x07\x06jumped\x04JMPT\x04AMPT");
/// assert_eq!(book::close_in(&mut room, length, 7), Err(BookRefusal::NotLive));
/// # Ok::<(), BookRefusal>(())
/// ```
#[inline]
pub fn close_in(room: &mut [u8], length: usize, station: u64) -> Result<(), BookRefusal> {
    let [_, told] = accepted(face::book_close(room, length as u64, station))?;
    debug_assert_eq!(told, length as u64);
    Ok(())
}
