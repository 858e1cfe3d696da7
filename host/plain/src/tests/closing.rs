//! Stations that close, and the room that comes back.
use super::*;

/// Stations 5, 7 and 9 in format 2, none with a name: five bytes each behind the header.
const BOOK: [u8; 18] = [2, 2, 0, 1, 5, 0, 0, 0, 1, 7, 0, 0, 0, 1, 9, 0, 0, 0];

/// The same with the last two closed.
const CLOSED: [u8; 18] = [2, 2, 0, 1, 5, 0, 0, 0, 0, 7, 0, 0, 0, 0, 9, 0, 0, 0];

/// A name that is empty has empty codes here.
fn none(_: &[u8], _: Header) -> (&'static [u8], &'static [u8]) {
    (b"", b"")
}

fn added(room: &[u8], length: u64, station: u64) -> Result<Vec<u8>, Fault> {
    add(room, length, station, b"", none)
}

/// A room of this length that begins with the book.
fn room(book: &[u8], length: usize) -> Vec<u8> {
    [book, &vec![0xee; length - book.len()]].concat()
}

#[test]
fn a_close_changes_one_byte() {
    let mut book = BOOK.to_vec();
    for station in [9, 7] {
        book = close(&book, 18, station).unwrap();
        assert_eq!(close(&book, 18, station), Err(11));
    }
    assert_eq!(book, CLOSED);
    let live: Vec<_> = read(&book).unwrap().1.iter().map(|record| (record.station, record.live)).collect();
    assert_eq!(live, [(5, true), (7, false), (9, false)]);
    for station in [0, 6, 10, NUMBER_END + 5, u64::MAX] {
        assert_eq!(close(&book, 18, station), Err(11));
    }
}

#[test]
fn a_close_reads_first() {
    assert_eq!(close(&BOOK[..17], 17, 5), Err(6));
    assert_eq!(close(&BOOK, 19, 5), Err(6));
    assert_eq!(close(&BOOK, u64::MAX, 4), Err(6));
    assert_eq!(close(&[2, 2, 0, 1, 5, 0, 0, 0, 2], u64::MAX, 5), Err(7));
    assert_eq!(close(&[], 0, 5), Err(6));
    // Format 1 is met before any fault behind it.
    for book in [&[1][..], &[1, 3], &[1, 1, 0, 5, 0, 0, 0], &[1, 1, 0, 5, 129, 8]] {
        assert_eq!(close(book, book.len() as u64, 5), Err(7));
        assert_eq!(close(book, 99, 5), Err(7));
    }
    assert_eq!(close(&[129, 0], 2, 5), Err(5));
}

#[test]
fn a_book_that_fits_stays_as_it_stands() {
    assert_eq!(added(&room(&CLOSED, 23), 18, 10), Ok([&CLOSED[..], &[1, 10, 0, 0, 0]].concat()));
    // Closed records count.
    assert_eq!(added(&room(&CLOSED, 23), 18, 9), Err(8));
    assert_eq!(added(&room(&CLOSED, 23), 18, 6), Err(8));
}

#[test]
fn a_book_that_does_not_fit_is_closed_up() {
    let made = vec![2, 2, 0, 1, 5, 0, 0, 0, 1, 6, 0, 0, 0];
    for length in 18..23 {
        assert_eq!(added(&room(&CLOSED, length), 18, 6), Ok(made.clone()));
        // Live records count.
        assert_eq!(added(&room(&CLOSED, length), 18, 5), Err(8));
        // The live ones with the new one do not fit.
        assert_eq!(added(&room(&BOOK, length), 18, 10), Err(9));
        assert_eq!(added(&room(&BOOK, length), 18, 9), Err(8));
    }
    // A live record behind closed ones moves.
    let book = [2, 2, 0, 0, 5, 0, 0, 0, 0, 7, 0, 0, 0, 1, 9, 0, 0, 0];
    assert_eq!(added(&book, 18, 200), Ok(vec![2, 2, 0, 1, 9, 0, 0, 0, 1, 200, 1, 0, 0, 0]));
}

#[test]
fn room_is_short_where_the_live_records_and_the_new_one_do_not_fit() {
    let book = [2, 2, 0, 1, 5, 0, 0, 0, 0, 7, 0, 0, 0];
    let name = |length: usize| vec![b'a'; length];
    let codeless = |length: usize| add(&book, 13, 8, &name(length), none).map(|made| made.len());
    // Five bytes come back, and a record without a name has five.
    assert_eq!([codeless(0), codeless(1)], [Ok(13), Err(9)]);
    let all_closed = [2, 2, 0, 0, 5, 0, 0, 0, 0, 7, 0, 0, 0];
    let codeless = |length: usize| add(&all_closed, 13, 0, &name(length), none).map(|made| made.len());
    assert_eq!([codeless(0), codeless(5), codeless(6)], [Ok(8), Ok(13), Err(9)]);
    // What is asked of the record by itself comes first.
    assert_eq!(add(&all_closed, 13, NUMBER_END, &name(6), none), Err(5));
}

#[test]
fn format_1_is_added_to_as_before() {
    let book = [1, 2, 0, 5, 0, 0, 0];
    assert_eq!(added(&room(&book, 11), 7, 6), Ok(vec![1, 2, 0, 5, 0, 0, 0, 6, 0, 0, 0]));
    assert_eq!([added(&room(&book, 10), 7, 6), added(&room(&book, 10), 7, 5)], [Err(9), Err(8)]);
}

#[test]
fn appending_goes_on_where_the_record_fits() {
    let header = |format, edition| Header { format, edition, cut: 0 };
    let appended = |room: &[u8], header, end, station| append(room, header, end, station, b"", none);
    let wide = room(&CLOSED, 23);
    assert_eq!(appended(&wide, header(2, 2), (18, 10), 10), added(&wide, 18, 10));
    assert_eq!(appended(&wide, header(2, 2), (18, 10), 9), Err(8));
    // Whether the book can be closed up, and what then counts, is not known here.
    for station in [6, 9, 10] {
        assert_eq!(appended(&wide[..22], header(2, 2), (18, 10), station), Err(9));
    }
    assert_eq!(appended(&wide[..17], header(2, 2), (18, 10), NUMBER_END), Err(6));
    assert_eq!(appended(&wide, header(2, 2), (18, 10), NUMBER_END), Err(5));
    for unknown in [header(0, 2), header(3, 2), header(2, 0), header(1, 3)] {
        assert_eq!(appended(&wide, unknown, (99, 0), NUMBER_END), Err(7));
    }
    // In format 1 the floor comes before the room.
    assert_eq!(appended(&wide[..21], header(1, 2), (18, 10), 9), Err(8));
    assert_eq!(appended(&wide[..21], header(1, 2), (18, 10), 10), Err(9));
    assert_eq!(appended(&wide[..22], header(1, 2), (18, 10), 10).unwrap()[18..], [10, 0, 0, 0]);
}

#[test]
fn a_join_skips_closed_records() {
    let all = [(5, 5), (5, 7), (5, 9), (7, 5), (7, 7), (7, 9), (9, 5), (9, 7), (9, 9)];
    assert_eq!(join(&BOOK, &BOOK, false).unwrap(), all);
    assert_eq!(join(&BOOK, &CLOSED, false).unwrap(), [(5, 5), (7, 5), (9, 5)]);
    assert_eq!(join(&CLOSED, &BOOK, true).unwrap(), [(5, 5), (5, 7), (5, 9)]);
    // Formats may be mixed.
    let old = [1, 2, 0, 4, 0, 0, 0];
    assert_eq!(join(&old, &CLOSED, false).unwrap(), [(4, 5)]);
    assert_eq!(join(&BOOK, &old, false).unwrap(), [(5, 4), (7, 4), (9, 4)]);
}
