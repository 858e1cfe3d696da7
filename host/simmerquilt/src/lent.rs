//! The library's own questions of words, on lent buffers and numbers. Nothing is allocated.
use crate::face;
use crate::refusal::{Refusal, Which, WordRefusal};

/// The longest word that is taken, before trimming.
pub const WORD_LIMIT: usize = 1024;

/// Buffers of this length are never too short, whatever the word and the limit.
pub const CODE_ROOM: usize = 2 * WORD_LIMIT - 1;

/// What [`encode_into`] and [`encode_into_in`] answer.
#[derive(Clone, Copy, Debug, PartialEq, Eq)]
pub struct Answer {
    /// 0 for codes written, else the refusal's number.
    pub number: u64,
    /// Under number 2 the place of the first byte that is not ASCII, else 0.
    pub place: usize,
    /// How many bytes of the primary buffer are its code; 0 under a refusal.
    pub primary: usize,
    /// How many bytes of the alternate buffer are its code; 0 under a refusal.
    pub alternate: usize,
    /// How many visits the codes took; 0 under a refusal.
    pub visits: usize,
}

impl Answer {
    /// The refusal, if it is one.
    pub fn refusal(&self) -> Option<Refusal> {
        Refusal::numbered(self.number, self.place as u64)
    }
}

/// Encodes a word by edition 1 into two lent buffers, under a limit or none. Each code lies at the front of its buffer; the bytes behind it,
/// and under a refusal both buffers, keep what they held.
///
/// The need is 0 if the trimmed word is empty, else `2 * t - 1` for its `t` bytes, or the limit if that is smaller.
///
/// ```
/// let (mut primary, mut alternate) = ([b'.'; 6], [b'.'; 6]);
/// let answer = simmerquilt::encode_into(b"KXZ", &mut primary, &mut alternate, None);
/// assert_eq!((answer.number, answer.primary, answer.alternate, answer.visits), (0, 4, 5, 3));
/// assert_eq!((&primary, &alternate), (b"KKSS..", b"KKSTS."));
///
/// // Three bytes may need five, also where the code turns out shorter.
/// let answer = simmerquilt::encode_into(b"KXZ", &mut primary[..4], &mut alternate, None);
/// assert_eq!(answer.refusal(), Some(simmerquilt::Refusal::PrimaryShort));
/// ```
#[inline]
pub fn encode_into(word: &[u8], primary: &mut [u8], alternate: &mut [u8], limit: Option<u64>) -> Answer {
    answer(face::encode(word, primary, alternate, limit))
}

/// Encodes a word as [`encode_into`] does, by the edition of the letter rules that has this number. An edition that is not known is told
/// before all else, by 7 and [`Refusal::UnknownEdition`]; [`Edition`](crate::Edition) has those that are.
///
/// ```
/// use simmerquilt::{encode_into_in, Refusal};
///
/// let (mut primary, mut alternate) = ([b'.'; 13], [b'.'; 13]);
/// let answer = encode_into_in(1, b"Van Chi", &mut primary, &mut alternate, None);
/// assert_eq!((&primary[..answer.primary], &alternate[..answer.alternate]), (&b"FNX"[..], &b"FNK"[..]));
/// let answer = encode_into_in(2, b"Van Chi", &mut primary, &mut alternate, None);
/// assert_eq!((&primary[..answer.primary], &alternate[..answer.alternate]), (&b"FNK"[..], &b"FNK"[..]));
///
/// // Neither the word nor the buffers are looked at.
/// let answer = encode_into_in(3, &[200; 2000], &mut [], &mut [], None);
/// assert_eq!((answer.number, answer.refusal()), (7, Some(Refusal::UnknownEdition)));
/// ```
#[inline]
pub fn encode_into_in(edition: u64, word: &[u8], primary: &mut [u8], alternate: &mut [u8], limit: Option<u64>) -> Answer {
    answer(face::encode_in(edition, word, primary, alternate, limit))
}

#[inline]
fn answer([number, place, primary, alternate, visits]: [u64; 5]) -> Answer {
    Answer {
        number,
        place: place as usize,
        primary: primary as usize,
        alternate: alternate as usize,
        visits: visits as usize,
    }
}

/// What [`ask_equal`] answers.
#[derive(Clone, Copy, Debug, PartialEq, Eq)]
pub struct Verdict {
    /// 0, or the refusal's number: 1 or 2.
    pub number: u64,
    /// The refused word, 1 or 2, else 0.
    pub word: u64,
    /// As in [`Answer`], in that word.
    pub place: usize,
    /// 1 where the codes are equal, else 0.
    pub equal: u64,
}

impl Verdict {
    /// Whether the codes are equal, or why a word was refused.
    pub fn result(&self) -> Result<bool, WordRefusal> {
        match Refusal::numbered(self.number, self.place as u64) {
            None => Ok(self.equal == 1),
            Some(refusal) => {
                let which = if self.word == 1 { Which::First } else { Which::Second };
                Err(WordRefusal { which, refusal })
            }
        }
    }
}

/// Whether the primary codes of two words by edition 1, or their alternate ones, are equal under a limit or none.
///
/// ```
/// assert_eq!(simmerquilt::ask_equal(b"Villa", b"Fillo", None, false).result(), Ok(true));
/// ```
#[inline]
pub fn ask_equal(first: &[u8], second: &[u8], limit: Option<u64>, alternate: bool) -> Verdict {
    let [number, word, place, equal] = face::equal(first, second, limit, alternate);
    Verdict { number, word, place: place as usize, equal }
}
