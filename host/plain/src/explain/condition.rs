//! The tests of a case's condition, and whether they hold at a place of a word.
use super::word::Word;

/// What a test counts its place from.
#[derive(Clone, Copy, Debug, PartialEq, Eq)]
pub enum From {
    Place,
    Front,
    End,
}

/// A place that a test looks at: so many bytes ahead of, or behind, what it counts from.
#[derive(Clone, Copy, Debug, PartialEq, Eq)]
pub struct Spot {
    pub from: From,
    pub offset: isize,
}

impl Spot {
    fn of(self, word: &Word, place: usize) -> isize {
        let from = match self.from {
            From::Place => place,
            From::Front => 0,
            From::End => word.length(),
        };
        from as isize + self.offset
    }
}

/// A window and the texts that it is held against.
#[derive(Clone, Debug, PartialEq, Eq)]
pub struct Window {
    pub spot: Spot,
    pub width: usize,
    pub texts: Vec<Vec<u8>>,
}

impl Window {
    /// The number of the first text that the window is, from 1. A text of another length than the window is never it.
    pub fn matched(&self, word: &Word, place: usize) -> Option<usize> {
        let window = word.window(self.spot.of(word, place), self.width)?;
        self.texts.iter().position(|text| text == window).map(|index| index + 1)
    }
}

/// A tree of tests.
#[derive(Clone, Debug, PartialEq, Eq)]
pub enum Condition {
    /// The last case of a letter has none.
    Else,
    Not(Box<Condition>),
    All(Vec<Condition>),
    Any(Vec<Condition>),
    Window(Window),
    Byte(Spot, u8),
    Vowel(Spot),
    PlaceIs(usize),
    PlaceBelow(usize),
    PlaceAbove(usize),
    /// Exactly so many bytes stand behind the place.
    Left(usize),
    /// The word has exactly so many bytes.
    Length(usize),
    /// The word is marked as Slavo-Germanic.
    Mark,
}

impl Condition {
    pub fn holds(&self, word: &Word, place: usize) -> bool {
        match self {
            Condition::Else => true,
            Condition::Not(part) => !part.holds(word, place),
            Condition::All(parts) => parts.iter().all(|part| part.holds(word, place)),
            Condition::Any(parts) => parts.iter().any(|part| part.holds(word, place)),
            Condition::Window(window) => window.matched(word, place).is_some(),
            Condition::Byte(spot, byte) => word.byte(spot.of(word, place)) == Some(*byte),
            Condition::Vowel(spot) => word.vowel(spot.of(word, place)),
            Condition::PlaceIs(number) => place == *number,
            Condition::PlaceBelow(number) => place < *number,
            Condition::PlaceAbove(number) => place > *number,
            Condition::Left(number) => place + 1 + number == word.length(),
            Condition::Length(number) => word.length() == *number,
            Condition::Mark => word.mark(),
        }
    }

    /// The windows that may tell a text, in the order in which they stand: a text asked for under a not is no part of a case's own
    /// condition, also where that not stands under another.
    pub fn telling(&self) -> Vec<&Window> {
        match self {
            Condition::All(parts) | Condition::Any(parts) => parts.iter().flat_map(Condition::telling).collect(),
            Condition::Window(window) => vec![window],
            _ => Vec::new(),
        }
    }
}
