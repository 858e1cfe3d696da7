//! The library's own three calls, on scratch and room that the caller lends. Nothing is allocated.
use super::refusal::JoinRefusal;
use crate::{book, face, BookRefusal};

/// Which of its two codes a station is met by.
#[derive(Clone, Copy, Debug, PartialEq, Eq, Hash)]
pub enum Choice {
    /// The primary code.
    Primary,
    /// The alternate code.
    Alternate,
}

impl Choice {
    fn alternate(self) -> bool {
        self == Choice::Alternate
    }
}

/// Two stations that meet.
#[derive(Clone, Copy, Debug, Default, PartialEq, Eq, PartialOrd, Ord, Hash)]
#[repr(C)]
pub struct Pair {
    /// The station in the first book.
    pub first: u32,
    /// The station in the second book.
    pub second: u32,
}

/// How many words of scratch the join of books with so many live records needs: `3 * first + 8 * second + 1`, or [`usize::MAX`] where that
/// does not fit.
#[inline]
pub fn scratch_words(first: usize, second: usize) -> usize {
    face::join_scratch(first, second)
}

/// How many pairs there are, or `most` where there are more. A fault of the first book, then of the second, then 10, then 9 for too
/// little scratch.
///
/// A refusal leaves the scratch as it is; else the words that are needed are 0 afterwards. What it holds before does not matter.
#[inline]
pub fn count_in(first: &[u8], second: &[u8], choice: Choice, scratch: &mut [usize], most: u64) -> Result<u64, JoinRefusal> {
    accepted(face::join_count(first, second, choice.alternate(), scratch, most), first)
}

/// Writes the pairs to the front of a room and tells how many there are. The refusals are those of [`count_in`], then 9 for too short
/// a room.
///
/// A refusal leaves the room as it is; pairs behind those that are written are kept. The scratch is left as [`count_in`] leaves it,
/// and its needed words are 0 also where the room is too short.
///
/// ```
/// use simmerquilt::join::{self, Choice, Pair};
///
/// // Station 7, jumped, cut at 4, and station 9, Jumpton, cut at 6.
/// let first = b"\x01\x01\x05\x07\x06jumped\x04JMPT\x04AMPT";
/// let second = b"\x01\x01\x07\x09\x07Jumpton\x05JMPTN\x05AMPTN";
/// let mut scratch = [0; 12];
/// assert_eq!(join::scratch_words(1, 1), scratch.len());
///
/// let mut room = [Pair::default(); 4];
/// let length = join::join_in(first, second, Choice::Primary, &mut scratch, &mut room)?;
/// assert_eq!(room[..length], [Pair { first: 7, second: 9 }]);
/// # Ok::<(), simmerquilt::JoinRefusal>(())
/// ```
#[inline]
pub fn join_in(
    first: &[u8],
    second: &[u8],
    choice: Choice,
    scratch: &mut [usize],
    room: &mut [Pair],
) -> Result<usize, JoinRefusal> {
    let count = accepted(face::join(first, second, choice.alternate(), scratch, face::numbers(room)), first)?;
    Ok(count as usize)
}

/// The count, or the refusal that the number says; the count is then 0.
#[inline]
fn accepted([number, count]: [u64; 2], first: &[u8]) -> Result<u64, JoinRefusal> {
    if number == 0 {
        return Ok(count);
    }
    debug_assert_eq!(count, 0);
    Err(refusal(number, first))
}

/// The refusal with this number. It does not say which book has a fault, so the first one is read again.
#[cold]
fn refusal(number: u64, first: &[u8]) -> JoinRefusal {
    match number {
        9 => JoinRefusal::RoomShort,
        10 => JoinRefusal::EditionsDiffer,
        _ => match (book::read(first), BookRefusal::numbered(number)) {
            (Err(fault), _) => JoinRefusal::First(fault),
            (Ok(_), Some(fault)) => JoinRefusal::Second(fault),
            (Ok(_), None) => unreachable!("0 is no refusal"),
        },
    }
}
