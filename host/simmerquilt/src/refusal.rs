use std::error::Error;
use std::fmt::{self, Display, Formatter};

/// Why a word got no codes or no rows, in the order in which it is tested: that the edition is not known, then the refusals 1 to 4, then 9.
#[derive(Clone, Copy, Debug, PartialEq, Eq, Hash)]
pub enum Refusal {
    /// 7: there is no edition of this number. Only [`encode_into_in`](crate::encode_into_in), [`explain_into`](crate::explain_into) and
    /// [`Edition`](crate::Edition) are given numbers of editions.
    UnknownEdition,
    /// 1: the word, before trimming, is over [`WORD_LIMIT`](crate::WORD_LIMIT) bytes.
    TooLong,
    /// 2: some byte is 128 or more; the place is that of the first, before trimming.
    NotAscii {
        /// Counted in bytes from 0.
        place: usize,
    },
    /// 3: the primary buffer is shorter than the need. Only [`encode_into`](crate::encode_into) and
    /// [`encode_into_in`](crate::encode_into_in) lend buffers of any length.
    PrimaryShort,
    /// 4: the alternate buffer is shorter than the need. Likewise.
    AlternateShort,
    /// 9: the room holds fewer rows than there are visits. Only [`explain_into`](crate::explain_into) lends room for rows.
    RowsShort,
}

impl Refusal {
    /// The refusal with this number; 0 is none.
    pub(crate) fn numbered(number: u64, place: u64) -> Option<Refusal> {
        match number {
            0 => None,
            1 => Some(Refusal::TooLong),
            2 => Some(Refusal::NotAscii { place: place as usize }),
            3 => Some(Refusal::PrimaryShort),
            4 => Some(Refusal::AlternateShort),
            9 => Some(Refusal::RowsShort),
            // The library is proved to give no other number than 7.
            _ => Some(Refusal::UnknownEdition),
        }
    }
}

impl Display for Refusal {
    fn fmt(&self, f: &mut Formatter<'_>) -> fmt::Result {
        match self {
            Refusal::UnknownEdition => f.write_str("the edition is not known"),
            Refusal::TooLong => write!(f, "the word is over {} bytes", crate::WORD_LIMIT),
            Refusal::NotAscii { place } => write!(f, "the byte at place {place} is not ASCII"),
            Refusal::PrimaryShort => f.write_str("the primary buffer is too short"),
            Refusal::AlternateShort => f.write_str("the alternate buffer is too short"),
            Refusal::RowsShort => f.write_str("the room holds fewer rows than the word has visits"),
        }
    }
}

impl Error for Refusal {}

/// One of the two words of the equality question.
#[derive(Clone, Copy, Debug, PartialEq, Eq, Hash)]
pub enum Which {
    /// The word given first; it is checked wholly before the second.
    First,
    /// The word given second.
    Second,
}

/// Why the equality question got no answer, and by which word.
#[derive(Clone, Copy, Debug, PartialEq, Eq, Hash)]
pub struct WordRefusal {
    /// The word that is refused.
    pub which: Which,
    /// [`Refusal::TooLong`] or [`Refusal::NotAscii`].
    pub refusal: Refusal,
}

impl Display for WordRefusal {
    fn fmt(&self, f: &mut Formatter<'_>) -> fmt::Result {
        let which = match self.which {
            Which::First => "first",
            Which::Second => "second",
        };
        write!(f, "{which} word: {}", self.refusal)
    }
}

impl Error for WordRefusal {}
