//! The calls into the proved library. All unsafe code of this crate is here.
#![allow(unsafe_code)]
use crate::join::Pair;
use std::slice;

extern "C" {
    fn simmerquilt_encode(
        word: *const u8,
        word_length: usize,
        primary: *mut u8,
        primary_length: usize,
        alternate: *mut u8,
        alternate_length: usize,
        limited: bool,
        limit: u64,
        out: *mut [u64; 5],
    );

    fn simmerquilt_encode_in(
        edition: u64,
        word: *const u8,
        word_length: usize,
        primary: *mut u8,
        primary_length: usize,
        alternate: *mut u8,
        alternate_length: usize,
        limited: bool,
        limit: u64,
        out: *mut [u64; 5],
    );

    fn simmerquilt_explain(
        edition: u64,
        word: *const u8,
        word_length: usize,
        limited: bool,
        limit: u64,
        rows: *mut u32,
        rows_length: usize,
        out: *mut [u64; 3],
    );

    fn simmerquilt_equal(
        first: *const u8,
        first_length: usize,
        second: *const u8,
        second_length: usize,
        limited: bool,
        limit: u64,
        alternate: bool,
        out: *mut [u64; 4],
    );

    fn simmerquilt_book_start(room: *mut u8, room_length: usize, limited: bool, limit: u64, out: *mut [u64; 2]);

    fn simmerquilt_book_open(book: *const u8, book_length: usize, out: *mut [u64; 6]);

    fn simmerquilt_book_next(
        book: *const u8,
        book_length: usize,
        format: u32,
        edition: u32,
        place: u64,
        floor: u32,
        out: *mut [u64; 12],
    );

    fn simmerquilt_book_read(book: *const u8, book_length: usize, out: *mut [u64; 7]);

    fn simmerquilt_book_add(
        room: *mut u8,
        room_length: usize,
        length: u64,
        station: u64,
        name: *const u8,
        name_length: usize,
        out: *mut [u64; 2],
    );

    fn simmerquilt_book_append(
        room: *mut u8,
        room_length: usize,
        format: u32,
        edition: u32,
        cut: u32,
        length: u64,
        floor: u32,
        station: u64,
        name: *const u8,
        name_length: usize,
        out: *mut [u64; 3],
    );

    fn simmerquilt_book_close(room: *mut u8, room_length: usize, length: u64, station: u64, out: *mut [u64; 2]);

    fn simmerquilt_join_scratch(first_live: usize, second_live: usize) -> usize;

    fn simmerquilt_join_count(
        first: *const u8,
        first_length: usize,
        second: *const u8,
        second_length: usize,
        alternate: bool,
        scratch: *mut usize,
        scratch_length: usize,
        most: u64,
        out: *mut [u64; 2],
    );

    fn simmerquilt_join(
        first: *const u8,
        first_length: usize,
        second: *const u8,
        second_length: usize,
        alternate: bool,
        scratch: *mut usize,
        scratch_length: usize,
        pairs: *mut u32,
        pairs_length: usize,
        out: *mut [u64; 2],
    );
}

/// Number, place, primary length, alternate length, visits.
#[inline]
pub fn encode(word: &[u8], primary: &mut [u8], alternate: &mut [u8], limit: Option<u64>) -> [u64; 5] {
    let mut out = [0; 5];
    // SAFETY: the function's contract asks nothing of its caller, so any word, any two buffers and any limit may be
    // passed. It is proved to read and write only inside the slices that it is lent, to end, and to return; it has no
    // state and keeps no pointer. What is left to us is that each pointer and length is one slice, that the two buffers
    // and `out` are ours to write and lie apart from each other and from the word: the borrows say so.
    unsafe {
        simmerquilt_encode(
            word.as_ptr(),
            word.len(),
            primary.as_mut_ptr(),
            primary.len(),
            alternate.as_mut_ptr(),
            alternate.len(),
            limit.is_some(),
            limit.unwrap_or(0),
            &mut out,
        );
    }
    out
}

/// As [`encode`], by an edition.
#[inline]
pub fn encode_in(edition: u64, word: &[u8], primary: &mut [u8], alternate: &mut [u8], limit: Option<u64>) -> [u64; 5] {
    let mut out = [0; 5];
    // SAFETY: as above. Any number may be passed as the edition.
    unsafe {
        simmerquilt_encode_in(
            edition,
            word.as_ptr(),
            word.len(),
            primary.as_mut_ptr(),
            primary.len(),
            alternate.as_mut_ptr(),
            alternate.len(),
            limit.is_some(),
            limit.unwrap_or(0),
            &mut out,
        );
    }
    out
}

/// Number, place, rows.
#[inline]
pub fn explain(edition: u64, word: &[u8], limit: Option<u64>, rows: &mut [u32]) -> [u64; 3] {
    let mut out = [0; 3];
    // SAFETY: as above. The rows and `out` are ours to write and lie apart from each other and from the word: the borrows say so.
    unsafe {
        simmerquilt_explain(
            edition,
            word.as_ptr(),
            word.len(),
            limit.is_some(),
            limit.unwrap_or(0),
            rows.as_mut_ptr(),
            rows.len(),
            &mut out,
        );
    }
    out
}

/// Number, which word, place, and 1 for equal.
#[inline]
pub fn equal(first: &[u8], second: &[u8], limit: Option<u64>, alternate: bool) -> [u64; 4] {
    let mut out = [0; 4];
    // SAFETY: as above. Both words are only read, so they may be one and the same.
    unsafe {
        simmerquilt_equal(
            first.as_ptr(),
            first.len(),
            second.as_ptr(),
            second.len(),
            limit.is_some(),
            limit.unwrap_or(0),
            alternate,
            &mut out,
        );
    }
    out
}

/// Number, length.
#[inline]
pub fn book_start(room: &mut [u8], limit: Option<u64>) -> [u64; 2] {
    let mut out = [0; 2];
    // SAFETY: as above. The room and `out` are ours to write and lie apart.
    unsafe {
        simmerquilt_book_start(room.as_mut_ptr(), room.len(), limit.is_some(), limit.unwrap_or(0), &mut out);
    }
    out
}

/// Number, format, edition, cut, place, floor.
#[inline]
pub fn book_open(book: &[u8]) -> [u64; 6] {
    let mut out = [0; 6];
    // SAFETY: as above. The book is only read.
    unsafe { simmerquilt_book_open(book.as_ptr(), book.len(), &mut out) };
    out
}

/// Number, found, station, start and length of the name, the primary and the alternate code, place, floor, kind.
#[inline]
pub fn book_next(book: &[u8], format: u32, edition: u32, place: u64, floor: u32) -> [u64; 12] {
    let mut out = [0; 12];
    // SAFETY: as above. The book is only read, and any cursor may be passed.
    unsafe { simmerquilt_book_next(book.as_ptr(), book.len(), format, edition, place, floor, &mut out) };
    out
}

/// Number, format, edition, cut, records, floor, live records.
#[inline]
pub fn book_read(book: &[u8]) -> [u64; 7] {
    let mut out = [0; 7];
    // SAFETY: as above. The book is only read.
    unsafe { simmerquilt_book_read(book.as_ptr(), book.len(), &mut out) };
    out
}

/// Number, length.
#[inline]
pub fn book_add(room: &mut [u8], length: u64, station: u64, name: &[u8]) -> [u64; 2] {
    let mut out = [0; 2];
    // SAFETY: as above. Any length may be stated, also one beyond the room; the borrows say that room, name and `out` lie apart.
    unsafe {
        simmerquilt_book_add(room.as_mut_ptr(), room.len(), length, station, name.as_ptr(), name.len(), &mut out);
    }
    out
}

/// Number, length, floor. The header is format, edition and cut.
#[inline]
pub fn book_append(
    room: &mut [u8],
    [format, edition, cut]: [u32; 3],
    length: u64,
    floor: u32,
    station: u64,
    name: &[u8],
) -> [u64; 3] {
    let mut out = [0; 3];
    // SAFETY: as above. The end that is told need not be a good one: a wrong one makes a book with faults, and nothing worse.
    unsafe {
        simmerquilt_book_append(
            room.as_mut_ptr(),
            room.len(),
            format,
            edition,
            cut,
            length,
            floor,
            station,
            name.as_ptr(),
            name.len(),
            &mut out,
        );
    }
    out
}

/// Number, length.
#[inline]
pub fn book_close(room: &mut [u8], length: u64, station: u64) -> [u64; 2] {
    let mut out = [0; 2];
    // SAFETY: as above. Any length may be stated, also one beyond the room.
    unsafe { simmerquilt_book_close(room.as_mut_ptr(), room.len(), length, station, &mut out) };
    out
}

/// How many words of scratch, or `usize::MAX`.
#[inline]
pub fn join_scratch(first: usize, second: usize) -> usize {
    // SAFETY: as above. Numbers alone are passed.
    unsafe { simmerquilt_join_scratch(first, second) }
}

/// Number, pairs.
#[inline]
pub fn join_count(first: &[u8], second: &[u8], alternate: bool, scratch: &mut [usize], most: u64) -> [u64; 2] {
    let mut out = [0; 2];
    // SAFETY: as above. Both books are only read, so they may be one and the same; the scratch may hold anything.
    unsafe {
        simmerquilt_join_count(
            first.as_ptr(),
            first.len(),
            second.as_ptr(),
            second.len(),
            alternate,
            scratch.as_mut_ptr(),
            scratch.len(),
            most,
            &mut out,
        );
    }
    out
}

/// Number, pairs.
#[inline]
pub fn join(first: &[u8], second: &[u8], alternate: bool, scratch: &mut [usize], pairs: &mut [u32]) -> [u64; 2] {
    let mut out = [0; 2];
    // SAFETY: as above. The borrows say that scratch, pairs and `out` lie apart from each other and from both books.
    unsafe {
        simmerquilt_join(
            first.as_ptr(),
            first.len(),
            second.as_ptr(),
            second.len(),
            alternate,
            scratch.as_mut_ptr(),
            scratch.len(),
            pairs.as_mut_ptr(),
            pairs.len(),
            &mut out,
        );
    }
    out
}

/// The numbers that pairs are made of.
#[inline]
pub fn numbers(pairs: &mut [Pair]) -> &mut [u32] {
    // SAFETY: a Pair is laid out as C lays out two numbers, so that a slice of pairs is a slice of twice as many numbers, borrowed as
    // it was; any two numbers are a pair.
    unsafe { slice::from_raw_parts_mut(pairs.as_mut_ptr().cast(), 2 * pairs.len()) }
}
