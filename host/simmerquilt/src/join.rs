//! The join of two books of one edition, whose cuts may differ: all pairs of stations that meet. Books of different editions are refused
//! by 10, [`JoinRefusal::EditionsDiffer`].
//!
//! Closed records are skipped on both sides, and a book of format 1 is joined with one of format 2 as well as with its like.
//!
//! Two stations meet where their chosen codes agree on their first bytes, as many as the smaller limit of both books; no limit puts no
//! bound, and a shorter code counts whole. [`Book::join`] makes a list of the pairs, a [`Joiner`] keeps what it works in from join to
//! join, and the functions are the library's three calls for those who lend their own room; they allocate nothing.
mod lent;
mod refusal;
#[cfg(test)]
mod tests;

pub use lent::{count_in, join_in, scratch_words, Choice, Pair};
pub use refusal::JoinRefusal;

use crate::{book, Book};

impl Book {
    /// The pairs of a live station of this book and one of another that meet, by rising station of this one, then of the other: at worst
    /// as many as the product of the numbers of live records. Both books are of one edition, else [`JoinRefusal::EditionsDiffer`].
    ///
    /// ```
    /// use simmerquilt::join::Pair;
    /// use simmerquilt::{Book, Choice, JoinRefusal};
    ///
    /// // One office keys its gauges at four, another at six.
    /// let mut ours = Book::new(Some(4))?;
    /// ours.add(7, "Rogier Mill")?;
    /// ours.add(20, "Jacinto")?;
    /// let mut theirs = Book::new(Some(6))?;
    /// theirs.add(1, "Rojier Mille")?;
    /// theirs.add(2, "Weser")?;
    ///
    /// // The same gauge has another key in each.
    /// let key = |book: &Book| book.records().next().unwrap().primary.to_vec();
    /// assert_eq!((key(&ours), key(&theirs)), (b"RJRM".to_vec(), b"RJRML".to_vec()));
    /// assert_eq!(ours.join(&theirs, Choice::Primary)?, [Pair { first: 7, second: 1 }]);
    ///
    /// // A book that was stored under edition 1 does not meet a new one.
    /// let stored = Book::from_bytes(b"\x01\x01\x05\x07\x06jumped\x04JMPT\x04AMPT".to_vec())?;
    /// assert_eq!(stored.join(&ours, Choice::Primary), Err(JoinRefusal::EditionsDiffer));
    /// # Ok::<(), Box<dyn std::error::Error>>(())
    /// ```
    pub fn join(&self, other: &Book, choice: Choice) -> Result<Vec<Pair>, JoinRefusal> {
        let (first, second) = (self.as_bytes(), other.as_bytes());
        let (mut scratch, mut room) = (Vec::new(), Vec::new());
        grow(&mut scratch, scratch_words(self.live(), other.live()))?;
        let count = count_in(first, second, choice, &mut scratch, u64::MAX)?;
        grow(&mut room, length(count))?;
        join_in(first, second, choice, &mut scratch, &mut room)?;
        Ok(room)
    }
}

/// Joins books, and keeps scratch and room from one join to the next, so that only a larger one than before allocates.
///
/// A book is a [`Book`] or bytes; bytes that are no book are refused, and it is told which of both they are.
///
/// ```
/// use simmerquilt::join::{Joiner, JoinRefusal, Pair};
/// use simmerquilt::{Book, BookRefusal, Choice};
///
/// let mut joiner = Joiner::new();
/// let mut ours = Book::new(Some(4))?;
/// ours.add(7, "Schermerhorn")?;
/// for limit in [None, Some(3), Some(6)] {
///     let mut theirs = Book::new(limit)?;
///     theirs.add(300, "Skirmer Horn")?;
///     assert_eq!(joiner.join(&ours, &theirs, Choice::Primary)?, []);
///     assert_eq!(joiner.join(&ours, &theirs, Choice::Alternate)?, [Pair { first: 7, second: 300 }]);
/// }
///
/// let refused = JoinRefusal::Second(BookRefusal::CutShort);
/// assert_eq!(joiner.join(&ours, b"\x01\x02", Choice::Primary), Err(refused));
/// # Ok::<(), Box<dyn std::error::Error>>(())
/// ```
#[derive(Clone, Debug, Default)]
pub struct Joiner {
    scratch: Vec<usize>,
    room: Vec<Pair>,
}

impl Joiner {
    /// A joiner that has allocated nothing yet.
    pub const fn new() -> Joiner {
        Joiner { scratch: Vec::new(), room: Vec::new() }
    }

    /// The pairs, as [`Book::join`] gives them, in the joiner's own room.
    pub fn join(
        &mut self,
        first: impl AsRef<[u8]>,
        second: impl AsRef<[u8]>,
        choice: Choice,
    ) -> Result<&[Pair], JoinRefusal> {
        let (first, second) = (first.as_ref(), second.as_ref());
        let mut joined = join_in(first, second, choice, &mut self.scratch, &mut self.room);
        if joined == Err(JoinRefusal::RoomShort) {
            let count = self.count(first, second, choice, u64::MAX)?;
            grow(&mut self.room, length(count))?;
            joined = join_in(first, second, choice, &mut self.scratch, &mut self.room);
        }
        Ok(&self.room[..joined?])
    }

    /// How many pairs there are, or `most` where there are more.
    ///
    /// ```
    /// # use simmerquilt::{join::Joiner, Book, Choice};
    /// let mut book = Book::new(None)?;
    /// for station in 0..100 {
    ///     book.add(station, "Weser")?;
    /// }
    /// let mut joiner = Joiner::new();
    /// assert_eq!(joiner.count(&book, &book, Choice::Primary, u64::MAX)?, 10_000);
    /// assert_eq!(joiner.count(&book, &book, Choice::Primary, 10)?, 10);
    /// # Ok::<(), Box<dyn std::error::Error>>(())
    /// ```
    pub fn count(
        &mut self,
        first: impl AsRef<[u8]>,
        second: impl AsRef<[u8]>,
        choice: Choice,
        most: u64,
    ) -> Result<u64, JoinRefusal> {
        let (first, second) = (first.as_ref(), second.as_ref());
        let mut counted = count_in(first, second, choice, &mut self.scratch, most);
        if counted == Err(JoinRefusal::RoomShort) {
            self.grow_scratch(first, second)?;
            counted = count_in(first, second, choice, &mut self.scratch, most);
        }
        counted
    }

    fn grow_scratch(&mut self, first: &[u8], second: &[u8]) -> Result<(), JoinRefusal> {
        let first = book::read(first).map_err(JoinRefusal::First)?.live;
        let second = book::read(second).map_err(JoinRefusal::Second)?.live;
        grow(&mut self.scratch, scratch_words(first, second))
    }
}

/// A count of pairs as a length; one that is no length finds no memory.
fn length(count: u64) -> usize {
    usize::try_from(count).unwrap_or(usize::MAX)
}

/// Makes a room at least so long.
fn grow<T: Clone + Default>(room: &mut Vec<T>, length: usize) -> Result<(), JoinRefusal> {
    if length > room.len() {
        room.try_reserve_exact(length - room.len()).map_err(|_| JoinRefusal::RoomShort)?;
        room.resize(length, T::default());
    }
    Ok(())
}
