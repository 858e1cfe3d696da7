use std::error::Error;
use std::fmt::{self, Display, Formatter};

/// Why a book was not read, started or added to, or a station of it not closed. Of several faults in a book the one that is met first is
/// given; a new record is tested for 1, 2, 5, 8 and 9 in this order.
#[derive(Clone, Copy, Debug, PartialEq, Eq, Hash)]
pub enum BookRefusal {
    /// 1: a name is over [`WORD_LIMIT`](crate::WORD_LIMIT) bytes.
    NameTooLong,
    /// 2: some byte of a name is 128 or more.
    NameNotAscii,
    /// 5: a number is in a bad form or needs more than four groups.
    BadNumber,
    /// 6: the book ends inside something.
    CutShort,
    /// 7: the format, the edition or a record's kind is not known: the formats 1 and 2 are, the editions 1 and 2, and the kinds 0 and 1.
    /// Also that a station of a book of format 1 is to be closed, whose records have no kind.
    Unknown,
    /// 8: a station is not above the one before. Closed records count as long as they are in the book.
    NotRising,
    /// 9: the lent room is too short for the result; from a [`Book`](crate::Book), which grows, that there was no memory for it.
    RoomShort,
    /// 11: no live record has the station that is to be closed.
    NotLive,
}

impl BookRefusal {
    /// Its number in document 02 and in the C header.
    pub const fn number(self) -> u64 {
        match self {
            BookRefusal::NameTooLong => 1,
            BookRefusal::NameNotAscii => 2,
            BookRefusal::BadNumber => 5,
            BookRefusal::CutShort => 6,
            BookRefusal::Unknown => 7,
            BookRefusal::NotRising => 8,
            BookRefusal::RoomShort => 9,
            BookRefusal::NotLive => 11,
        }
    }

    /// The refusal with this number; 0 is none.
    pub(crate) fn numbered(number: u64) -> Option<BookRefusal> {
        match number {
            0 => None,
            1 => Some(BookRefusal::NameTooLong),
            2 => Some(BookRefusal::NameNotAscii),
            5 => Some(BookRefusal::BadNumber),
            6 => Some(BookRefusal::CutShort),
            7 => Some(BookRefusal::Unknown),
            8 => Some(BookRefusal::NotRising),
            9 => Some(BookRefusal::RoomShort),
            11 => Some(BookRefusal::NotLive),
            other => unreachable!("the library is proved not to give the number {other}"),
        }
    }
}

impl Display for BookRefusal {
    fn fmt(&self, f: &mut Formatter<'_>) -> fmt::Result {
        match self {
            BookRefusal::NameTooLong => write!(f, "the name is over {} bytes", crate::WORD_LIMIT),
            BookRefusal::NameNotAscii => f.write_str("the name is not ASCII"),
            BookRefusal::BadNumber => f.write_str("a number is in a bad form or needs more than four groups"),
            BookRefusal::CutShort => f.write_str("the book is cut short"),
            BookRefusal::Unknown => f.write_str(
                "the book's format, edition or a kind in it is not known, or a station of format 1 was to be closed",
            ),
            BookRefusal::NotRising => f.write_str("the station is not above the one before"),
            BookRefusal::RoomShort => f.write_str("the room is too short"),
            BookRefusal::NotLive => f.write_str("no live station has this number: it is not in the book, or closed already"),
        }
    }
}

impl Error for BookRefusal {}
