//! Double Metaphone keys under the names that users of rphonetic know, made by a port whose every function is proved.
//!
//! A word is bytes: a `&str` or a `&[u8]`. Where the Rust panics or runs on, this refuses: a word over 1,024 bytes, and a byte
//! that is not ASCII, with its place.
//!
//! ```
//! use simmerquilt::{DoubleMetaphone, Refusal};
//!
//! let encoder = DoubleMetaphone::default();
//! assert_eq!(encoder.encode("jumped")?, "JMPT");
//! assert_eq!(encoder.encode_alternate("jumped")?, "AMPT");
//! assert_eq!(encoder.encode("Garçon"), Err(Refusal::NotAscii { place: 3 }));
//! # Ok::<(), Refusal>(())
//! ```
//!
//! The codes are those of edition 1 of the letter rules, which alone equals the crate. [`DoubleMetaphone::in_edition`] has them by
//! another [`Edition`]: edition 2 sounds the CH of "Van Chi" as K.
//!
//! ```
//! use simmerquilt::{DoubleMetaphone, Edition, Refusal};
//!
//! let encoder = DoubleMetaphone::default();
//! assert_eq!(encoder.encode("Van Chi")?, "FNX");
//! assert_eq!(encoder.in_edition(Edition::Two).encode("Van Chi")?, "FNK");
//! # Ok::<(), Refusal>(())
//! ```
//!
//! Where two spellings do not meet, [`DoubleMetaphone::explain`] says why: which rule spoke at each letter, and by which text.
//!
//! ```
//! use simmerquilt::{DoubleMetaphone, Refusal};
//!
//! let why = DoubleMetaphone::default().explain("Villa")?;
//! assert_eq!((why.rows()[2].case(), why.rows()[2].matched()), (1, Some("ILLA")));
//! assert!(why.rows()[2].to_string().starts_with("at 2 L, case 1 by ILLA: L and nothing, passes over 1 (the next letter is L"));
//! # Ok::<(), Refusal>(())
//! ```
//!
//! [`encode_into`], [`encode_into_in`], [`explain_into`] and [`ask_equal`] are the library's own questions, on lent buffers and without
//! allocation. A [`Book`] keeps names with their codes and says by which edition they were made, and its stations close; [`book`] has the
//! library's calls for those who keep a book's bytes themselves. [`Book::join`] finds the stations of two books of one edition that meet,
//! also where their cuts differ; [`join`] has it for those who lend their own room.
#![deny(unsafe_code)]
#![warn(missing_docs)]

pub mod book;
mod cases;
mod edition;
mod explain;
mod face;
pub mod join;
mod lent;
mod refusal;
mod rules;

pub use book::{Book, BookRefusal, Kind, Record, Records};
pub use edition::{Edition, EditionEncoder};
pub use explain::{explain_into, Explanation, Gain, Row, Told, ROW};
pub use join::{Choice, JoinRefusal, Joiner, Pair};
pub use lent::{ask_equal, encode_into, encode_into_in, Answer, Verdict, CODE_ROOM, WORD_LIMIT};
pub use refusal::{Refusal, Which, WordRefusal};

/// Room for both codes that is taken from the stack; longer ones are rare and take it from the heap.
const SMALL_ROOM: usize = 64;

/// An encoder of edition 1, whose codes are those of the crate rphonetic 4.0.0: the most bytes that a code may have, or no limit.
#[derive(Clone, Copy, Debug, PartialEq, Eq, PartialOrd, Ord, Hash)]
pub struct DoubleMetaphone {
    max_code_length: Option<usize>,
}

impl Default for DoubleMetaphone {
    /// An encoder whose codes have at most 4 bytes.
    fn default() -> Self {
        Self::new(Some(4))
    }
}

impl DoubleMetaphone {
    /// An encoder whose codes have at most the given bytes, or any number of them.
    pub const fn new(max_code_length: Option<usize>) -> Self {
        Self { max_code_length }
    }

    /// The encoder of an edition, under the same limit. It has no equality question, which is edition 1's alone.
    ///
    /// ```
    /// # use simmerquilt::{DoubleMetaphone, Edition};
    /// let encoder = DoubleMetaphone::new(None).in_edition(Edition::Two);
    /// assert_eq!(encoder.encode("Von Reichert")?, "FNRKRT");
    /// assert_eq!(encoder.edition(), Edition::Two);
    /// # Ok::<(), simmerquilt::Refusal>(())
    /// ```
    pub const fn in_edition(self, edition: Edition) -> EditionEncoder {
        EditionEncoder::new(self, edition)
    }

    /// The primary code.
    pub fn encode(&self, word: impl AsRef<[u8]>) -> Result<String, Refusal> {
        self.double_metaphone(word).map(|result| result.primary)
    }

    /// The alternate code.
    pub fn encode_alternate(&self, word: impl AsRef<[u8]>) -> Result<String, Refusal> {
        self.double_metaphone(word).map(|result| result.alternate)
    }

    /// Both codes, and the visits that they took.
    ///
    /// ```
    /// # use simmerquilt::DoubleMetaphone;
    /// let result = DoubleMetaphone::new(None).double_metaphone("artois")?;
    /// assert_eq!((result.primary(), result.alternate(), result.visits()), ("ART", "ARTS", 6));
    /// # Ok::<(), simmerquilt::Refusal>(())
    /// ```
    pub fn double_metaphone(&self, word: impl AsRef<[u8]>) -> Result<DoubleMetaphoneResult, Refusal> {
        self.codes(Edition::One, word.as_ref())
    }

    /// Which rule spoke at each visit that the codes take: a row for each, in order, that prints.
    ///
    /// ```
    /// # use simmerquilt::DoubleMetaphone;
    /// for row in DoubleMetaphone::default().explain("Mac Gregor")? {
    ///     println!("{row}");
    /// }
    /// # Ok::<(), simmerquilt::Refusal>(())
    /// ```
    pub fn explain(&self, word: impl AsRef<[u8]>) -> Result<Explanation, Refusal> {
        self.explained(Edition::One, word.as_ref())
    }

    /// Whether two words have the same code by edition 1, the alternate one if `alternate` says so, else the primary one.
    ///
    /// ```
    /// # use simmerquilt::{DoubleMetaphone, Refusal, Which, WordRefusal};
    /// let encoder = DoubleMetaphone::default();
    /// assert_eq!(encoder.is_double_metaphone_equal("Schmidt", "Smith", true), Ok(false));
    /// assert_eq!(encoder.is_double_metaphone_equal("Smith", "Smyth", false), Ok(true));
    ///
    /// let refused = WordRefusal { which: Which::Second, refusal: Refusal::NotAscii { place: 1 } };
    /// assert_eq!(encoder.is_double_metaphone_equal("Nunez", "Núñez", false), Err(refused));
    /// ```
    pub fn is_double_metaphone_equal(
        &self,
        first: impl AsRef<[u8]>,
        second: impl AsRef<[u8]>,
        alternate: bool,
    ) -> Result<bool, WordRefusal> {
        ask_equal(first.as_ref(), second.as_ref(), self.limit(), alternate).result()
    }

    /// Both codes and the visits by an edition, for this encoder and for that of the edition.
    fn codes(&self, edition: Edition, word: &[u8]) -> Result<DoubleMetaphoneResult, Refusal> {
        let room = self.room(word.len());
        if room <= SMALL_ROOM {
            self.codes_with(edition, word, &mut [0; 2 * SMALL_ROOM][..2 * room])
        } else {
            self.codes_with(edition, word, &mut vec![0; 2 * room])
        }
    }

    /// The listing by an edition, for this encoder and for that of the edition.
    fn explained(&self, edition: Edition, word: &[u8]) -> Result<Explanation, Refusal> {
        Explanation::new(edition, word, self.limit())
    }

    fn limit(&self) -> Option<u64> {
        self.max_code_length.map(|length| length as u64)
    }

    /// At least the need of any word of this length, so that no buffer is found too short.
    fn room(&self, word_length: usize) -> usize {
        let whole = (2 * word_length.min(WORD_LIMIT)).saturating_sub(1);
        self.max_code_length.map_or(whole, |length| length.min(whole))
    }

    /// Encodes with one half of the room for each code.
    fn codes_with(&self, edition: Edition, word: &[u8], room: &mut [u8]) -> Result<DoubleMetaphoneResult, Refusal> {
        let (primary, alternate) = room.split_at_mut(room.len() / 2);
        let answer = encode_into_in(edition.number(), word, primary, alternate, self.limit());
        match answer.refusal() {
            Some(refusal) => Err(refusal),
            None => Ok(DoubleMetaphoneResult {
                primary: text(&primary[..answer.primary]),
                alternate: text(&alternate[..answer.alternate]),
                visits: answer.visits,
            }),
        }
    }
}

/// A code as text. It has capitals, the digit 0 and the space only, so nothing is lost.
fn text(code: &[u8]) -> String {
    String::from_utf8_lossy(code).into_owned()
}

/// Both codes of a word.
#[derive(Clone, Debug, PartialEq, Eq, PartialOrd, Ord, Hash)]
pub struct DoubleMetaphoneResult {
    primary: String,
    alternate: String,
    visits: usize,
}

impl DoubleMetaphoneResult {
    /// The primary code.
    pub fn primary(&self) -> &str {
        &self.primary
    }

    /// The alternate code.
    pub fn alternate(&self) -> &str {
        &self.alternate
    }

    /// How many visits were made: the fewest that fill both codes to the limit, or all.
    pub fn visits(&self) -> usize {
        self.visits
    }
}
