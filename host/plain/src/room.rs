//! What is done to a book that lies at the front of a room. Each gives the book that is there afterwards, or why it is refused; all other
//! bytes of the room stay as they are.
use crate::write::{judge, push_record};
use crate::{read, Fault, Header, Reader, CUT_SHORT, NOT_LIVE, NOT_RISING, ROOM_SHORT, UNKNOWN};

/// The book in the first `length` bytes of a room, or as much of it as is there.
fn present(room: &[u8], length: u64) -> &[u8] {
    &room[..length.min(room.len() as u64) as usize]
}

/// Where each record of a good book lies, and whether it is live.
fn places(book: &[u8]) -> Result<Vec<(usize, usize, bool)>, Fault> {
    let (_, mut reader) = Reader::open(book)?;
    let mut places = Vec::new();
    let mut start = reader.place();
    while let Some(record) = reader.next() {
        places.push((start, reader.place(), record?.live));
        start = reader.place();
    }
    Ok(places)
}

/// The header and the live records, byte for byte.
fn closed_up(book: &[u8]) -> Result<Vec<u8>, Fault> {
    let (_, reader) = Reader::open(book)?;
    let mut shorter = book[..reader.place()].to_vec();
    for (start, end, live) in places(book)? {
        if live {
            shorter.extend(&book[start..end]);
        }
    }
    Ok(shorter)
}

/// Adds a record. Where it does not fit behind the book as it stands, the book is closed up first, and closed records count no more.
pub fn add<C: AsRef<[u8]>>(
    room: &[u8],
    length: u64,
    station: u64,
    name: &[u8],
    codes: impl FnOnce(&[u8], Header) -> (C, C),
) -> Result<Vec<u8>, Fault> {
    let book = present(room, length);
    let (header, records) = read(book)?;
    if length > book.len() as u64 {
        return Err(CUT_SHORT);
    }
    judge(station, name)?;
    let mut record = Vec::new();
    push_record(&mut record, header, station, name, codes);
    let as_it_stands = book.len() + record.len() <= room.len();
    if records.iter().any(|other| (as_it_stands || other.live) && station <= u64::from(other.station)) {
        return Err(NOT_RISING);
    }
    let mut made = if as_it_stands { book.to_vec() } else { closed_up(book)? };
    made.extend(record);
    if made.len() > room.len() {
        return Err(ROOM_SHORT);
    }
    Ok(made)
}

/// Adds a record behind an end that is told, where the least station that it may have is the floor. The book is not read, so that in
/// format 2, where closed records may give room back and only live ones then count, 9 is all that can be told of one that does not fit.
pub fn append<C: AsRef<[u8]>>(
    room: &[u8],
    header: Header,
    (length, floor): (u64, u32),
    station: u64,
    name: &[u8],
    codes: impl FnOnce(&[u8], Header) -> (C, C),
) -> Result<Vec<u8>, Fault> {
    header.known()?;
    if length > room.len() as u64 {
        return Err(CUT_SHORT);
    }
    judge(station, name)?;
    let mut made = present(room, length).to_vec();
    push_record(&mut made, header, station, name, codes);
    let rises = if station >= floor.into() { Ok(()) } else { Err(NOT_RISING) };
    let fits = if made.len() <= room.len() { Ok(()) } else { Err(ROOM_SHORT) };
    if header.format == 1 { rises.and(fits) } else { fits.and(rises) }.map(|()| made)
}

/// Closes a station: the kind of its record, which was 1, is 0.
pub fn close(room: &[u8], length: u64, station: u64) -> Result<Vec<u8>, Fault> {
    let book = present(room, length);
    // The format 1 is written as this byte alone. Its records have no kind, whatever is behind it.
    if book.first() == Some(&1) {
        return Err(UNKNOWN);
    }
    let (_, records) = read(book)?;
    if length > book.len() as u64 {
        return Err(CUT_SHORT);
    }
    let at = records.iter().position(|record| record.live && u64::from(record.station) == station).ok_or(NOT_LIVE)?;
    let mut made = book.to_vec();
    made[places(book)?[at].0] = 0;
    Ok(made)
}
