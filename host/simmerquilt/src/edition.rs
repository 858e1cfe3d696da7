use crate::{DoubleMetaphone, DoubleMetaphoneResult, Explanation, Refusal};

/// An edition of the letter rules. A book carries one, and its codes are made by it.
///
/// ```
/// use simmerquilt::{DoubleMetaphone, Edition};
///
/// let codes = |edition| {
///     let result = DoubleMetaphone::new(None).in_edition(edition).double_metaphone("Van Chi").unwrap();
///     (result.primary().to_string(), result.alternate().to_string(), result.visits())
/// };
/// assert_eq!(codes(Edition::One), ("FNX".to_string(), "FNK".to_string(), 6));
/// assert_eq!(codes(Edition::Two), ("FNK".to_string(), "FNK".to_string(), 6));
/// ```
#[derive(Clone, Copy, Debug, PartialEq, Eq, PartialOrd, Ord, Hash)]
pub enum Edition {
    /// 1: the rules of the crate rphonetic 4.0.0. It alone equals the crate, and it is that of [`DoubleMetaphone`] and of the equality
    /// question. Books that were stored before there was another carry it.
    One,
    /// 2: the same, but for one test. The rule that sounds CH as K tests for "VAN " and "VON " at the word's front, as other rules do;
    /// edition 1 compares these four bytes with the three letters alone, which never holds. New books carry it. No crate has it.
    Two,
}

impl Edition {
    /// Its number in a book's header and in [`encode_into_in`](crate::encode_into_in).
    pub const fn number(self) -> u64 {
        match self {
            Edition::One => 1,
            Edition::Two => 2,
        }
    }
}

/// The edition with this number, or [`Refusal::UnknownEdition`].
///
/// ```
/// use simmerquilt::{Book, Edition, Refusal};
///
/// let book = Book::new(Some(4))?;
/// assert_eq!(Edition::try_from(u64::from(book.edition())), Ok(Edition::Two));
/// assert_eq!(Edition::try_from(3), Err(Refusal::UnknownEdition));
/// # Ok::<(), simmerquilt::BookRefusal>(())
/// ```
impl TryFrom<u64> for Edition {
    type Error = Refusal;

    fn try_from(number: u64) -> Result<Edition, Refusal> {
        match number {
            1 => Ok(Edition::One),
            2 => Ok(Edition::Two),
            _ => Err(Refusal::UnknownEdition),
        }
    }
}

/// An encoder that follows the edition it is asked for; [`DoubleMetaphone::in_edition`] makes it.
///
/// It does not ask whether two words are equal: that question is edition 1's alone, and [`DoubleMetaphone`] has it.
#[derive(Clone, Copy, Debug, PartialEq, Eq, PartialOrd, Ord, Hash)]
pub struct EditionEncoder {
    encoder: DoubleMetaphone,
    edition: Edition,
}

impl EditionEncoder {
    pub(crate) const fn new(encoder: DoubleMetaphone, edition: Edition) -> Self {
        EditionEncoder { encoder, edition }
    }

    /// Which edition it follows.
    pub const fn edition(&self) -> Edition {
        self.edition
    }

    /// The primary code.
    pub fn encode(&self, word: impl AsRef<[u8]>) -> Result<String, Refusal> {
        self.double_metaphone(word).map(|result| result.primary)
    }

    /// The alternate code.
    pub fn encode_alternate(&self, word: impl AsRef<[u8]>) -> Result<String, Refusal> {
        self.double_metaphone(word).map(|result| result.alternate)
    }

    /// Both codes, and the visits that they took.
    pub fn double_metaphone(&self, word: impl AsRef<[u8]>) -> Result<DoubleMetaphoneResult, Refusal> {
        self.encoder.codes(self.edition, word.as_ref())
    }

    /// Which rule spoke at each visit that the codes take, as [`DoubleMetaphone::explain`] tells it.
    ///
    /// ```
    /// # use simmerquilt::{DoubleMetaphone, Edition};
    /// let encoder = DoubleMetaphone::default();
    /// let case_at_c = |edition| encoder.in_edition(edition).explain("Van Chi").unwrap().rows()[4].case();
    /// assert_eq!((case_at_c(Edition::One), case_at_c(Edition::Two)), (6, 4));
    /// ```
    pub fn explain(&self, word: impl AsRef<[u8]>) -> Result<Explanation, Refusal> {
        self.encoder.explained(self.edition, word.as_ref())
    }
}
