//! The station key book: names with their codes, stored with the edition and the cut that made them.
//!
//! A new book carries edition 2. A stored book of edition 1 is read and added to under edition 1, so that all codes of a book are made
//! alike; books of different editions are not joined.
//!
//! A new book carries format 2, in which a station can be closed: its record stays, is read as [`Kind::Closed`] and joined no more, and
//! gives its room back once that is needed. A stored book of format 1 is read as all live and added to in format 1; none of its stations
//! closes.
//!
//! [`Book`] keeps its bytes itself. The functions are for those who keep their own room; they are the library's seven calls and allocate
//! nothing.
mod file;
mod lent;
mod refusal;

pub use lent::{add_in, append_in, close_in, next, open, read, start_in};
pub use lent::{Cursor, End, Header, Kind, Record, Whole, HEADER_ROOM, RECORD_ROOM, STATION_END};
pub use refusal::BookRefusal;

use std::fmt::{self, Debug, Formatter};
use std::fs;
use std::io::{self, ErrorKind};
use std::iter::FusedIterator;
use std::path::Path;

/// A good book in memory. Records are added from its known end, so that adding does not read it again, but where it is closed up.
///
/// ```
/// use simmerquilt::{Book, BookRefusal};
///
/// let mut book = Book::new(Some(4))?;
/// book.add(7, "Villa Bridge")?;
/// book.add(300, "jumped")?;
/// assert_eq!(book.add(300, "Saj"), Err(BookRefusal::NotRising));
///
/// let again = Book::from_bytes(book.as_bytes().to_vec())?;
/// let codes: Vec<_> = again.records().map(|record| (record.station, record.primary)).collect();
/// assert_eq!(codes, [(7, &b"FLPR"[..]), (300, &b"JMPT"[..])]);
/// # Ok::<(), BookRefusal>(())
/// ```
#[derive(Clone)]
pub struct Book {
    /// The book, then bytes that are not yet used.
    room: Vec<u8>,
    header: Header,
    end: End,
    records: usize,
    live: usize,
}

impl Book {
    /// A book of format 2 and edition 2 without records, whose codes will have at most `limit` bytes: [`BookRefusal::BadNumber`] for a
    /// limit that the header cannot hold.
    pub fn new(limit: Option<u64>) -> Result<Book, BookRefusal> {
        let mut room = vec![0; HEADER_ROOM];
        let length = start_in(&mut room, limit)?;
        room.truncate(length);
        Book::from_bytes(room)
    }

    /// The book that these bytes are, of either format and edition, or the fault that is met first in them.
    ///
    /// ```
    /// use simmerquilt::Book;
    ///
    /// // A book stored under edition 1 goes on under it, and a new one has edition 2.
    /// let mut stored = Book::from_bytes(b"\x01\x01\x05".to_vec())?;
    /// let mut new = Book::new(Some(4))?;
    /// for book in [&mut stored, &mut new] {
    ///     book.add(10, "Van Chi")?;
    /// }
    /// let key = |book: &Book| book.records().next().unwrap().primary.to_vec();
    /// assert_eq!((stored.edition(), key(&stored)), (1, b"FNX".to_vec()));
    /// assert_eq!((new.edition(), key(&new)), (2, b"FNK".to_vec()));
    /// # Ok::<(), simmerquilt::BookRefusal>(())
    /// ```
    pub fn from_bytes(bytes: Vec<u8>) -> Result<Book, BookRefusal> {
        let Whole { header, records, live, end } = read(&bytes)?;
        Ok(Book { room: bytes, header, end, records, live })
    }

    /// Adds a record, whose codes are made here, by the book's own edition. A refusal changes nothing.
    ///
    /// A station above all others, closed ones too, always rises. The book closes up before it grows: where its room is full and that of
    /// closed records is enough, the live ones move together, and the closed ones are gone. Then, and only then, the new station need be
    /// above the live ones alone; until their room has been used again, the numbers of closed stations count for
    /// [`BookRefusal::NotRising`] as those of live ones do.
    ///
    /// ```
    /// use simmerquilt::{Book, BookRefusal};
    ///
    /// let mut book = Book::new(Some(4))?;
    /// for station in [7, 20, 300] {
    ///     book.add(station, "Villa Bridge")?;
    /// }
    /// // As it comes from a file, a book has no room but its own.
    /// let mut book = Book::from_bytes(book.as_bytes().to_vec())?;
    /// book.close(7)?;
    /// book.close(300)?;
    /// book.add(21, "Weser")?;
    /// assert_eq!(book.records().map(|record| record.station).collect::<Vec<_>>(), [20, 21]);
    /// # Ok::<(), BookRefusal>(())
    /// ```
    pub fn add(&mut self, station: u64, name: impl AsRef<[u8]>) -> Result<(), BookRefusal> {
        let name = name.as_ref();
        let mut answer = self.append(station, name);
        if answer == Err(BookRefusal::RoomShort) && self.live < self.records {
            answer = self.close_up(station, name);
        }
        if answer == Err(BookRefusal::RoomShort) {
            self.grow(name.len())?;
            answer = self.append(station, name);
        }
        answer
    }

    /// Adds a record behind the end.
    fn append(&mut self, station: u64, name: &[u8]) -> Result<(), BookRefusal> {
        self.end = append_in(&mut self.room, self.header, self.end, station, name)?;
        self.records += 1;
        self.live += 1;
        Ok(())
    }

    /// Adds a record that does not fit behind the end: the closed ones make room for it.
    fn close_up(&mut self, station: u64, name: &[u8]) -> Result<(), BookRefusal> {
        let length = add_in(&mut self.room, self.end.length, station, name)?;
        self.end = End { length, floor: station as u32 + 1 };
        self.live += 1;
        self.records = self.live;
        Ok(())
    }

    /// Closes a station: its record stays, as [`Kind::Closed`], until its room is needed. [`BookRefusal::NotLive`] where no live record
    /// has this station, and [`BookRefusal::Unknown`] for any in a book of format 1. A refusal changes nothing.
    ///
    /// ```
    /// use simmerquilt::{Book, BookRefusal};
    ///
    /// let mut book = Book::new(Some(4))?;
    /// book.add(7, "Villa Bridge")?;
    /// book.add(300, "jumped")?;
    /// book.close(7)?;
    /// assert_eq!(book.close(7), Err(BookRefusal::NotLive));
    /// assert_eq!((book.len(), book.live()), (2, 1));
    /// let kinds: Vec<_> = book.records().map(|record| (record.station, record.kind.is_live())).collect();
    /// assert_eq!(kinds, [(7, false), (300, true)]);
    /// # Ok::<(), BookRefusal>(())
    /// ```
    pub fn close(&mut self, station: u64) -> Result<(), BookRefusal> {
        close_in(&mut self.room, self.end.length, station)?;
        self.live -= 1;
        Ok(())
    }

    /// Makes room for a name of this length, and at least doubles it, so that many records cost few copies.
    fn grow(&mut self, name: usize) -> Result<(), BookRefusal> {
        let more = record_room(name, self.limit());
        self.room.try_reserve(more).map_err(|_| BookRefusal::RoomShort)?;
        self.room.resize(self.room.capacity(), 0);
        Ok(())
    }

    /// The book's bytes.
    pub fn as_bytes(&self) -> &[u8] {
        &self.room[..self.end.length]
    }

    /// The book's bytes, to keep.
    pub fn into_bytes(mut self) -> Vec<u8> {
        self.room.truncate(self.end.length);
        self.room
    }

    /// How many records it has, closed ones too.
    pub fn len(&self) -> usize {
        self.records
    }

    /// Whether it has no records, not even closed ones.
    pub fn is_empty(&self) -> bool {
        self.records == 0
    }

    /// How many of its records are live.
    pub fn live(&self) -> usize {
        self.live
    }

    /// The most bytes that its codes may have, or none for any number of them.
    pub fn limit(&self) -> Option<u64> {
        self.header.limit()
    }

    /// How its records are laid out: 2 in a new book, 1 or 2 in one that was stored.
    pub fn format(&self) -> u32 {
        self.header.format
    }

    /// Which edition of the letter rules makes its codes: 2 in a new book, 1 or 2 in one that was stored.
    pub fn edition(&self) -> u32 {
        self.header.edition
    }

    /// Its live records, by rising station.
    pub fn live_records(&self) -> impl Iterator<Item = Record<'_>> {
        self.records().filter(|record| record.kind.is_live())
    }

    /// Its records, live and closed, by rising station.
    pub fn records(&self) -> Records<'_> {
        let book = self.as_bytes();
        let (_, cursor) = open(book).expect("a Book is good");
        Records { book, cursor, left: self.records }
    }

    /// Reads a book from a file. A fault in it is an error of kind [`InvalidData`](ErrorKind::InvalidData) that holds the
    /// [`BookRefusal`].
    pub fn load(path: impl AsRef<Path>) -> io::Result<Book> {
        Book::from_bytes(fs::read(path)?).map_err(|refusal| io::Error::new(ErrorKind::InvalidData, refusal))
    }

    /// Writes the book to a file, in place of what it held. The file has the old bytes or the new ones, and never half a book, also
    /// where the machine stops halfway. Under an error it has the old ones, but where only the last step failed, which is to have the
    /// folder written to the disk. The name then stands for a new file: a link is replaced, and the old file's rights are not kept.
    pub fn save(&self, path: impl AsRef<Path>) -> io::Result<()> {
        file::replace(path.as_ref(), self.as_bytes())
    }
}

/// The most bytes that a record with a name of this length can have under a limit.
fn record_room(name: usize, limit: Option<u64>) -> usize {
    let whole = (2 * name).saturating_sub(1);
    let code = limit.map_or(whole, |limit| whole.min(usize::try_from(limit).unwrap_or(whole)));
    // A kind has one group, a station at most four, a length at most two.
    1 + 4 + 2 + name + 2 * (2 + code)
}

/// One list of records under one header has one book. A closed record is one of the list.
impl PartialEq for Book {
    fn eq(&self, other: &Book) -> bool {
        self.as_bytes() == other.as_bytes()
    }
}

impl Eq for Book {}

impl AsRef<[u8]> for Book {
    fn as_ref(&self) -> &[u8] {
        self.as_bytes()
    }
}

impl Debug for Book {
    fn fmt(&self, f: &mut Formatter<'_>) -> fmt::Result {
        f.debug_struct("Book")
            .field("header", &self.header)
            .field("records", &self.records)
            .field("live", &self.live)
            .finish_non_exhaustive()
    }
}

impl<'a> IntoIterator for &'a Book {
    type Item = Record<'a>;
    type IntoIter = Records<'a>;

    fn into_iter(self) -> Records<'a> {
        self.records()
    }
}

/// The records of a [`Book`].
#[derive(Clone, Debug)]
pub struct Records<'a> {
    book: &'a [u8],
    cursor: Cursor,
    left: usize,
}

impl<'a> Iterator for Records<'a> {
    type Item = Record<'a>;

    fn next(&mut self) -> Option<Record<'a>> {
        let (record, cursor) = next(self.book, self.cursor).expect("a Book is good")?;
        self.cursor = cursor;
        self.left -= 1;
        Some(record)
    }

    fn size_hint(&self) -> (usize, Option<usize>) {
        (self.left, Some(self.left))
    }
}

impl ExactSizeIterator for Records<'_> {}

impl FusedIterator for Records<'_> {}
