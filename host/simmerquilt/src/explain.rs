//! Which rule spoke: the listing of a word's visits, lent and owned.
use crate::edition::Edition;
use crate::face;
use crate::lent::WORD_LIMIT;
use crate::refusal::Refusal;
use crate::rules;
use std::fmt::{self, Display, Formatter};

/// The numbers of a row in the room that [`explain_into`] is lent: place, letter, case, text, what the primary code gained, what the
/// alternate one gained, bytes passed over.
pub const ROW: usize = 7;

/// What [`explain_into`] answers.
#[derive(Clone, Copy, Debug, PartialEq, Eq)]
pub struct Told {
    /// 0 for rows written, else the refusal's number: 7, 1, 2 or 9, the first of them that holds.
    pub number: u64,
    /// Under number 2 the place of the first byte that is not ASCII, else 0.
    pub place: usize,
    /// How many rows lie at the front of the room; 0 under a refusal.
    pub rows: usize,
}

impl Told {
    /// The refusal, if it is one.
    pub fn refusal(&self) -> Option<Refusal> {
        Refusal::numbered(self.number, self.place as u64)
    }
}

/// Lists which case spoke at each visit of a word, by the edition of a number and under a limit or none, to the front of a lent room:
/// [`ROW`] numbers a row. A gain is 0 for nothing, the byte, or the first byte plus 256 times the second; it is told before it is clipped
/// to the limit. Numbers behind the rows, and under a refusal all, keep what they held. Room for as many rows as the word has bytes is
/// never too short.
///
/// ```
/// let mut rows = [0; 5 * simmerquilt::ROW];
/// let told = simmerquilt::explain_into(1, b"Villa", None, &mut rows);
/// assert_eq!((told.number, told.rows), (0, 4));
/// // L at place 2, case 1, by the second of ILLO, ILLA and ALLE: the primary code gains L and the alternate one nothing.
/// assert_eq!(rows[2 * 7..3 * 7], [2, u32::from(b'L'), 1, 2, u32::from(b'L'), 0, 1]);
///
/// let told = simmerquilt::explain_into(1, b"Villa", None, &mut rows[..3 * 7]);
/// assert_eq!(told.refusal(), Some(simmerquilt::Refusal::RowsShort));
/// ```
#[inline]
pub fn explain_into(edition: u64, word: &[u8], limit: Option<u64>, rows: &mut [u32]) -> Told {
    let [number, place, rows] = face::explain(edition, word, limit, rows);
    Told { number, place: place as usize, rows: rows as usize }
}

/// The rows of a word's visits, in order. It prints as a line a row.
#[derive(Clone, Debug, PartialEq, Eq)]
pub struct Explanation {
    rows: Vec<Row>,
}

impl Explanation {
    pub(crate) fn new(edition: Edition, word: &[u8], limit: Option<u64>) -> Result<Self, Refusal> {
        let mut numbers = vec![0; ROW * word.len().min(WORD_LIMIT)];
        let told = explain_into(edition.number(), word, limit, &mut numbers);
        match told.refusal() {
            Some(refusal) => Err(refusal),
            None => {
                let rows = numbers.chunks_exact(ROW).take(told.rows).map(|row| Row::new(trimmed(word), row));
                Ok(Explanation { rows: rows.collect() })
            }
        }
    }

    /// The rows.
    pub fn rows(&self) -> &[Row] {
        &self.rows
    }

    /// The rows, one after the other.
    pub fn iter(&self) -> std::slice::Iter<'_, Row> {
        self.rows.iter()
    }
}

impl IntoIterator for Explanation {
    type Item = Row;
    type IntoIter = std::vec::IntoIter<Row>;

    fn into_iter(self) -> Self::IntoIter {
        self.rows.into_iter()
    }
}

impl<'a> IntoIterator for &'a Explanation {
    type Item = &'a Row;
    type IntoIter = std::slice::Iter<'a, Row>;

    fn into_iter(self) -> Self::IntoIter {
        self.iter()
    }
}

impl Display for Explanation {
    fn fmt(&self, f: &mut Formatter<'_>) -> fmt::Result {
        self.rows.iter().try_for_each(|row| writeln!(f, "{row}"))
    }
}

/// The word between its blanks, bytes 9 to 13 and 32, from which places count.
fn trimmed(word: &[u8]) -> &[u8] {
    let blank = |byte: &u8| matches!(byte, 9..=13 | 32);
    let from = word.iter().position(|byte| !blank(byte)).unwrap_or(word.len());
    let end = word.iter().rposition(|byte| !blank(byte)).map_or(from, |last| last + 1);
    &word[from..end]
}

/// One visit: where it was, which case of its letter spoke and by which text, what the codes gained, and what was passed over. docs/RULES.md
/// has every case by its number; a row prints its case's line and the text that matched.
#[derive(Clone, Copy, Debug, PartialEq, Eq)]
pub struct Row {
    place: usize,
    letter: u8,
    case: usize,
    text: usize,
    primary: Gain,
    alternate: Gain,
    over: usize,
    matched: Option<&'static str>,
}

impl Row {
    /// From its numbers, in the order that [`ROW`] has; the word is trimmed.
    fn new(word: &[u8], numbers: &[u32]) -> Self {
        let (letter, place, case, text) = (numbers[1] as u8, numbers[0] as usize, numbers[2] as usize, numbers[3] as usize);
        Row {
            place,
            letter,
            case,
            text,
            primary: Gain(numbers[4]),
            alternate: Gain(numbers[5]),
            over: numbers[6] as usize,
            matched: rules::case(letter, case).and_then(|case| rules::matched(case, word, place, text)),
        }
    }

    /// The visited place, from the front of the trimmed word.
    pub fn place(&self) -> usize {
        self.place
    }

    /// The visited byte as it counts: a to z as A to Z, any other as it is.
    pub fn letter(&self) -> u8 {
        self.letter
    }

    /// The number of the case that spoke, from 1, in its letter's table.
    pub fn case(&self) -> usize {
        self.case
    }

    /// The number of the text that matched in the case's condition, from 1 in its list, or 0 where none did.
    pub fn text(&self) -> usize {
        self.text
    }

    /// That text itself.
    pub fn matched(&self) -> Option<&'static str> {
        self.matched
    }

    /// The case's condition in words, as docs/RULES.md has it.
    pub fn rule(&self) -> &'static str {
        rules::case(self.letter, self.case).map_or("", |case| case.when)
    }

    /// What the primary code gained, before it is clipped to the limit.
    pub fn primary(&self) -> Gain {
        self.primary
    }

    /// What the alternate code gained, likewise.
    pub fn alternate(&self) -> Gain {
        self.alternate
    }

    /// How many bytes behind the visited one are passed over.
    pub fn over(&self) -> usize {
        self.over
    }
}

impl Display for Row {
    fn fmt(&self, f: &mut Formatter<'_>) -> fmt::Result {
        write!(f, "at {} {}, case {}", self.place, Shown(&[self.letter]), self.case)?;
        if let Some(text) = self.matched {
            write!(f, " by {}", Shown(text.as_bytes()))?;
        }
        write!(f, ": {} and {}", self.primary, self.alternate)?;
        if self.over > 0 {
            write!(f, ", passes over {}", self.over)?;
        }
        write!(f, " ({})", self.rule())
    }
}

/// What a code gains by a visit: nothing, one byte or two.
#[derive(Clone, Copy, Debug, PartialEq, Eq)]
pub struct Gain(u32);

impl Gain {
    /// Its bytes.
    pub fn bytes(&self) -> impl Iterator<Item = u8> {
        [self.0 % 256, self.0 / 256].into_iter().filter(|byte| *byte != 0).map(|byte| byte as u8)
    }
}

impl Display for Gain {
    fn fmt(&self, f: &mut Formatter<'_>) -> fmt::Result {
        match self.0 {
            0 => f.write_str("nothing"),
            _ => write!(f, "{}", Shown(&self.bytes().collect::<Vec<u8>>())),
        }
    }
}

/// Bytes of a word as a line shows them: a space is seen, and what has no sign is told by its number.
struct Shown<'a>(&'a [u8]);

impl Display for Shown<'_> {
    fn fmt(&self, f: &mut Formatter<'_>) -> fmt::Result {
        self.0.iter().try_for_each(|byte| match byte {
            b' ' => f.write_str("\u{2423}"),
            b'!'..=b'~' => write!(f, "{}", *byte as char),
            _ => write!(f, "byte {byte}"),
        })
    }
}
