//! Station key books in plain Rust, written from the words of document 02, L1 and L7, and not from the proved code or its definition: the
//! outside witness of the proved reader and writer. A book knows no encoder; who writes one passes in what makes the codes, and that is
//! told the book's header, since the edition and the cut that stand there make them. The join of two books is here too, by comparing each
//! live record with each. The two editions are L4's, the two formats and the closing of stations L7's.
//!
//! [`explain`] says which rule spoke at each visit of a word (L6), from the table of cases and not from the proved rules: the outside
//! witness of the library's listing.
//!
//! L1 does not say which of two faults comes first that one byte shows. Here, as in the library, a number's form comes before its value.
mod explain;
mod join;
mod read;
mod room;
mod write;

pub use explain::{codes, explain, in_room, listed, Listed, Refused, Row};
pub use join::join;
pub use read::{read, Header, Reader, Record};
pub use room::{add, append, close};
pub use write::{push_number, Writer};

/// Why a book or a record is refused: document 02's number.
pub type Fault = u64;

/// A name over [`NAME_LIMIT`] bytes.
pub const TOO_LONG: Fault = 1;
/// A name with a byte of 128 or more.
pub const NOT_ASCII: Fault = 2;
/// A number that is not in its shortest form, or has more than four groups.
pub const BAD_NUMBER: Fault = 5;
/// The book ends inside something.
pub const CUT_SHORT: Fault = 6;
/// A format that is not of [`FORMATS`], or an edition that is not of [`EDITIONS`], or a kind above 1; for a close, the format 1.
pub const UNKNOWN: Fault = 7;
/// A station that is not above the one before.
pub const NOT_RISING: Fault = 8;
/// A room too short for the result.
pub const ROOM_SHORT: Fault = 9;
/// Two books of different editions.
pub const EDITIONS_DIFFER: Fault = 10;
/// No live station of the number that is to be closed.
pub const NOT_LIVE: Fault = 11;

/// The formats that a book may carry: from 2 on, a record has its kind before its station.
pub const FORMATS: [u32; 2] = [1, 2];

/// The format of a new book.
pub const NEW_FORMAT: u32 = 2;

/// The editions of the letter rules that a book may carry.
pub const EDITIONS: [u32; 2] = [1, 2];

/// The edition of a new book.
pub const NEW_EDITION: u32 = 2;

/// The longest name.
pub const NAME_LIMIT: usize = 1024;

/// Four groups of seven bits hold the numbers below this.
pub const NUMBER_END: u64 = 1 << 28;

#[cfg(test)]
mod tests;
