//! One comparison: calls of the port, and what document 01, L4, L6, the Rust and the plain evaluator say that they must answer.
use crate::lent::Lent;
use crate::listing::{self, Room};
use crate::port::Port;
use oracle::{Codes, Oracle, LARGEST_LIMIT};
use plain::Listed;
use simmerquilt::{Answer, Verdict, ROW, WORD_LIMIT};
use std::fmt::{self, Display, Formatter};

/// How the lent buffers stand to the need.
#[derive(Clone, Copy, Debug, PartialEq, Eq)]
pub enum Rooms {
    Exact,
    Spare,
    PrimaryShort,
    AlternateShort,
    BothShort,
    Nothing,
}

impl Rooms {
    /// The lengths of both buffers.
    fn lengths(self, need: usize) -> (usize, usize) {
        let short = need.saturating_sub(1);
        match self {
            Rooms::Exact => (need, need),
            Rooms::Spare => (need + 3, need + 7),
            Rooms::PrimaryShort => (short, need),
            Rooms::AlternateShort => (need, short),
            Rooms::BothShort => (short, short),
            Rooms::Nothing => (0, 0),
        }
    }

    /// The numbers of a room for rows: one or a row too few where a buffer is short, and such as make no row where there is more.
    fn numbers(self, need: usize) -> usize {
        match self {
            Rooms::Exact => need,
            Rooms::Spare => need + 2 * ROW + 3,
            Rooms::PrimaryShort => need.saturating_sub(1),
            Rooms::AlternateShort => need.saturating_sub(ROW),
            Rooms::BothShort => need / 2,
            Rooms::Nothing => 0,
        }
    }
}

/// Which call encodes a word.
#[derive(Clone, Copy, Debug, PartialEq, Eq)]
enum Call {
    /// The one that takes no edition, and is of edition 1.
    Plain,
    /// The one that takes this edition, known or not.
    In(u64),
}

#[derive(Clone, Copy, Debug)]
pub enum Trial<'a> {
    /// By each call: with no edition, by both editions, and by one that is not known; codes, and by each edition the listing too.
    Encode {
        word: &'a [u8],
        limit: Option<u64>,
        rooms: Rooms,
        unknown: u64,
    },
    Equal {
        first: &'a [u8],
        second: &'a [u8],
        limit: Option<u64>,
        alternate: bool,
    },
}

/// What was expected and what was got instead.
#[derive(Debug)]
pub struct Difference {
    expected: String,
    got: String,
}

/// What is encoded, on buffers of these lengths.
#[derive(Clone, Copy)]
struct Asked<'a> {
    word: &'a [u8],
    limit: Option<u64>,
    primary_room: usize,
    alternate_room: usize,
}

/// An answer, and the codes that are in the buffers then.
type Expected = (Answer, Codes);

/// Holds a port against the Rust, and counts by number what was expected.
pub struct Checker<'a, P> {
    oracle: Oracle,
    port: &'a P,
    lent: Lent,
    room: Room,
    pub numbers: [u64; 5],
    /// Of the words that were encoded, those on which the editions differ.
    pub apart: u64,
    /// The rows of listings that were compared.
    pub rows: u64,
}

impl<'a, P: Port> Checker<'a, P> {
    pub fn new(oracle: Oracle, port: &'a P) -> Self {
        Checker { oracle, port, lent: Lent::new(), room: Room::new(), numbers: [0; 5], apart: 0, rows: 0 }
    }

    pub fn check(&mut self, trial: Trial) -> Result<(), Difference> {
        match trial {
            Trial::Encode { word, limit, rooms, unknown } => self.check_encode(word, limit, rooms, unknown),
            Trial::Equal { first, second, limit, alternate } => self.check_equal(first, second, limit, alternate),
        }
    }

    fn check_encode(&mut self, word: &[u8], limit: Option<u64>, rooms: Rooms, unknown: u64) -> Result<(), Difference> {
        let (primary_room, alternate_room) = rooms.lengths(need(word, limit));
        let asked = Asked { word, limit, primary_room, alternate_room };
        let [first, second] = match asked.refused() {
            Some(answer) => [(); 2].map(|_| refused(answer)),
            None => self.encoded(asked)?,
        };
        self.numbers[first.0.number as usize] += 1;
        self.apart += u64::from(first != second);

        self.check_call(asked, Call::Plain, &first)?;
        self.check_call(asked, Call::In(1), &first)?;
        self.check_call(asked, Call::In(2), &second)?;
        self.check_call(asked, Call::In(unknown), &refused((7, 0)))?;

        for (edition, encoded) in [(1, &first), (2, &second), (unknown, &refused((7, 0)))] {
            let listed = plain::listed(edition, word, limit);
            makes(&listed, limit, encoded)?;
            self.check_listing(asked, edition, rooms, &listed)?;
        }
        Ok(())
    }

    fn check_call(&mut self, asked: Asked, call: Call, (expected, codes): &Expected) -> Result<(), Difference> {
        let Asked { word, limit, primary_room, alternate_room } = asked;
        let (primary, alternate) = self.lent.buffers(primary_room, alternate_room);
        let got = match call {
            Call::Plain => self.port.encode(word, primary, alternate, limit),
            Call::In(edition) => self.port.encode_in(edition, word, primary, alternate, limit),
        };
        if got == *expected && self.lent.holds(codes.primary.as_bytes(), codes.alternate.as_bytes()) {
            return Ok(());
        }
        Err(Difference {
            expected: format!("{expected:?}, codes {:?} and {:?}", codes.primary, codes.alternate),
            got: format!("{got:?}, {} {call}", self.lent.shown()),
        })
    }

    /// The listing by an edition, in a room that stands to its need as the buffers do to theirs.
    fn check_listing(&mut self, asked: Asked, edition: u64, rooms: Rooms, listed: &Listed) -> Result<(), Difference> {
        let length = rooms.numbers(listing::need(listed));
        let (expected, rows) = listing::expected(listed, length);
        self.rows += rows.len() as u64;
        let got = self.port.explain(edition, asked.word, asked.limit, self.room.lent(length));
        if got == expected && self.room.holds(rows) {
            return Ok(());
        }
        let wanted: Vec<[u32; ROW]> = rows.iter().map(plain::Row::numbers).collect();
        Err(Difference {
            expected: format!("{expected:?}, rows {wanted:?}"),
            got: format!("{got:?}, room {} in the listing by edition {edition}", self.room.shown()),
        })
    }

    /// The answers of both editions to a word that is not refused: the codes of the unchanged Rust and the visits of its counted copy,
    /// and both by the copy that reads as edition 2 does.
    fn encoded(&self, Asked { word, limit, .. }: Asked) -> Result<[Expected; 2], Difference> {
        let text = std::str::from_utf8(word).expect("ASCII is UTF-8");
        let codes = self.oracle.codes(text, rust_limit(limit));
        let (counted, visits) = self.oracle.counted(text, rust_limit(limit));
        if counted != codes {
            return Err(Difference { expected: format!("{codes:?}"), got: format!("{counted:?} by the counted copy") });
        }
        Ok([(codes, visits), self.oracle.edition2(text, rust_limit(limit))].map(|(codes, visits)| {
            let (primary, alternate) = (codes.primary.len(), codes.alternate.len());
            (Answer { number: 0, place: 0, primary, alternate, visits }, codes)
        }))
    }

    fn check_equal(&mut self, first: &[u8], second: &[u8], limit: Option<u64>, alternate: bool) -> Result<(), Difference> {
        let expected = match (ascii(first), ascii(second)) {
            (Err((number, place)), _) => Verdict { number, word: 1, place, equal: 0 },
            (_, Err((number, place))) => Verdict { number, word: 2, place, equal: 0 },
            (Ok(first), Ok(second)) => {
                let equal = self.oracle.equal(first, second, rust_limit(limit), alternate);
                Verdict { number: 0, word: 0, place: 0, equal: equal.into() }
            }
        };
        self.numbers[expected.number as usize] += 1;
        let got = self.port.equal(first, second, limit, alternate);
        if got == expected {
            return Ok(());
        }
        Err(Difference { expected: format!("{expected:?}"), got: format!("{got:?}") })
    }
}

impl Asked<'_> {
    /// The number and the place of a refusal by document 01's table, which is that of both editions.
    fn refused(self) -> Option<(u64, usize)> {
        let need = need(self.word, self.limit);
        match ascii(self.word) {
            Err(refused) => Some(refused),
            Ok(_) if self.primary_room < need => Some((3, 0)),
            Ok(_) if self.alternate_room < need => Some((4, 0)),
            Ok(_) => None,
        }
    }
}

fn refused((number, place): (u64, usize)) -> Expected {
    let none = Codes { primary: String::new(), alternate: String::new() };
    (Answer { number, place, primary: 0, alternate: 0, visits: 0 }, none)
}

/// The evaluator that the listing is held against has as many rows as the Rust has visits, and its gains are the Rust's codes.
fn makes(listed: &Listed, limit: Option<u64>, (answer, codes): &Expected) -> Result<(), Difference> {
    let Ok(rows) = listed else { return Ok(()) };
    let (primary, alternate) = plain::codes(rows, limit);
    let same = rows.len() == answer.visits && primary == codes.primary.as_bytes() && alternate == codes.alternate.as_bytes();
    if same || answer.number != 0 {
        return Ok(());
    }
    Err(Difference {
        expected: format!("{answer:?}, codes {:?} and {:?}", codes.primary, codes.alternate),
        got: format!("{rows:?} by the plain evaluator"),
    })
}

/// The word as text, or the number of its refusal and the place.
fn ascii(word: &[u8]) -> Result<&str, (u64, usize)> {
    if word.len() > WORD_LIMIT {
        return Err((1, 0));
    }
    match word.iter().position(|byte| !byte.is_ascii()) {
        Some(place) => Err((2, place)),
        None => Ok(std::str::from_utf8(word).expect("ASCII is UTF-8")),
    }
}

/// Document 01's need; for a word that is refused anyway, some length.
fn need(word: &[u8], limit: Option<u64>) -> usize {
    let trimmed = ascii(word).map_or(word.len(), |text| text.trim().len());
    let whole = (2 * trimmed).saturating_sub(1);
    limit.map_or(whole, |limit| limit.min(whole as u64) as usize)
}

/// No code comes near the largest limit that is put to the Rust, so a larger one is no limit.
fn rust_limit(limit: Option<u64>) -> Option<usize> {
    limit.map(|limit| limit as usize).filter(|limit| *limit <= LARGEST_LIMIT)
}

impl Display for Difference {
    fn fmt(&self, f: &mut Formatter<'_>) -> fmt::Result {
        write!(f, "  expected {}\n  got      {}", self.expected, self.got)
    }
}

impl Display for Call {
    fn fmt(&self, f: &mut Formatter<'_>) -> fmt::Result {
        match self {
            Call::Plain => f.write_str("by the call without an edition"),
            Call::In(edition) => write!(f, "by edition {edition}"),
        }
    }
}

impl Display for Trial<'_> {
    fn fmt(&self, f: &mut Formatter<'_>) -> fmt::Result {
        let quoted = |word: &[u8]| format!("b\"{}\"", word.escape_ascii());
        match self {
            Trial::Encode { word, limit, rooms, .. } => {
                let (primary, alternate) = rooms.lengths(need(word, *limit));
                write!(f, "encode {}, limit {limit:?}, buffers of {primary} and {alternate} bytes", quoted(word))
            }
            Trial::Equal { first, second, limit, alternate } => {
                let code = if *alternate { "alternate" } else { "primary" };
                write!(f, "equal {} and {}, limit {limit:?}, {code} codes", quoted(first), quoted(second))
            }
        }
    }
}
