use crate::BookRefusal;
use std::error::Error;
use std::fmt::{self, Display, Formatter};

/// Why two books were not joined, in the order in which it is tested; the room comes last.
#[derive(Clone, Copy, Debug, PartialEq, Eq, Hash)]
pub enum JoinRefusal {
    /// 1, 2 or 5 to 8: the first book has a fault.
    First(BookRefusal),
    /// 1, 2 or 5 to 8: the first book is good, and the second has a fault.
    Second(BookRefusal),
    /// 10: both books are good, and their codes were made by different editions of the letter rules. A code of one says nothing of a
    /// code of the other.
    EditionsDiffer,
    /// 9: the lent scratch or the room for the pairs is too short; where they grow by themselves, that there was no memory for it.
    RoomShort,
}

impl JoinRefusal {
    /// Its number in document 02 and in the C header.
    pub const fn number(self) -> u64 {
        match self {
            JoinRefusal::First(refusal) | JoinRefusal::Second(refusal) => refusal.number(),
            JoinRefusal::EditionsDiffer => 10,
            JoinRefusal::RoomShort => 9,
        }
    }
}

impl Display for JoinRefusal {
    fn fmt(&self, f: &mut Formatter<'_>) -> fmt::Result {
        match self {
            JoinRefusal::First(refusal) => write!(f, "first book: {refusal}"),
            JoinRefusal::Second(refusal) => write!(f, "second book: {refusal}"),
            JoinRefusal::EditionsDiffer => f.write_str("the books are of different editions"),
            JoinRefusal::RoomShort => f.write_str("the room is too short"),
        }
    }
}

impl Error for JoinRefusal {}
