//! Reads a condition in the notation of cases.txt. The table is part of this crate, so that what is not as expected is a mistake in it
//! and stops the program.
//!
//! `p+k[A B]` is a window k ahead of the place, `p-k` behind it, `front` from the word's front, `end-k` from its end; it is as wide as
//! its texts, or as wide as is said. `p+k=b` is one byte, `left=k` says that exactly k bytes stand behind the place, `len=k` how many
//! the word has; `_` is a space; `mark` is the Slavo-Germanic mark; `!` is a not, and `&` comes before `|`.
use super::condition::{Condition, From, Spot, Window};

/// What is still to be read.
pub struct Notation<'a>(&'a str);

/// The whole text as one condition.
pub fn condition(text: &str) -> Condition {
    let mut rest = Notation(text);
    let condition = rest.any();
    assert!(rest.0.is_empty(), "a condition ends before {:?}", rest.0);
    condition
}

impl Notation<'_> {
    fn taken(&mut self, sign: &str) -> bool {
        match self.0.strip_prefix(sign) {
            Some(rest) => {
                self.0 = rest;
                true
            }
            None => false,
        }
    }

    fn take(&mut self, sign: &str) {
        assert!(self.taken(sign), "{sign:?} is expected before {:?}", self.0);
    }

    fn any(&mut self) -> Condition {
        let mut parts = vec![self.all()];
        while self.taken(" | ") {
            parts.push(self.all());
        }
        one_or(parts, Condition::Any)
    }

    fn all(&mut self) -> Condition {
        let mut parts = vec![self.one()];
        while self.taken(" & ") {
            parts.push(self.one());
        }
        one_or(parts, Condition::All)
    }

    fn one(&mut self) -> Condition {
        if self.taken("!") {
            return Condition::Not(Box::new(self.one()));
        }
        if self.taken("(") {
            let condition = self.any();
            self.take(")");
            return condition;
        }
        self.test()
    }

    fn test(&mut self) -> Condition {
        if self.taken("else") {
            Condition::Else
        } else if self.taken("mark") {
            Condition::Mark
        } else if self.taken("left=") {
            Condition::Left(self.number())
        } else if self.taken("len=") {
            Condition::Length(self.number())
        } else if self.taken("p=") {
            Condition::PlaceIs(self.number())
        } else if self.taken("p<") {
            Condition::PlaceBelow(self.number())
        } else if self.taken("p>") {
            Condition::PlaceAbove(self.number())
        } else if self.taken("vowel(") {
            let spot = self.spot();
            self.take(")");
            Condition::Vowel(spot)
        } else {
            self.look()
        }
    }

    /// A byte or a window at some spot.
    fn look(&mut self) -> Condition {
        let spot = self.spot();
        if self.taken("=") {
            return Condition::Byte(spot, self.byte());
        }
        let said = self.taken("(width ").then(|| {
            let width = self.number();
            self.take(")");
            width
        });
        let texts = self.texts();
        let width = said.unwrap_or(texts[0].len());
        let alike = texts.iter().all(|text| text.len() == texts[0].len());
        assert!(alike, "the texts before {:?} are of one width", self.0);
        Condition::Window(Window { spot, width, texts })
    }

    fn spot(&mut self) -> Spot {
        let from = if self.taken("front") {
            From::Front
        } else if self.taken("end") {
            From::End
        } else {
            self.take("p");
            From::Place
        };
        let offset = if self.taken("+") {
            self.number() as isize
        } else if self.taken("-") {
            -(self.number() as isize)
        } else {
            0
        };
        Spot { from, offset }
    }

    fn number(&mut self) -> usize {
        let digits = self.split(|c| !c.is_ascii_digit());
        digits.parse().unwrap_or_else(|_| panic!("a number is expected before {:?}", self.0))
    }

    fn byte(&mut self) -> u8 {
        let letter = self.split(|c| !c.is_ascii_uppercase() && c != '_');
        match text(letter)[..] {
            [byte] => byte,
            _ => panic!("one byte is expected before {:?}", self.0),
        }
    }

    fn texts(&mut self) -> Vec<Vec<u8>> {
        self.take("[");
        let texts = self.split(|c| c == ']').split(' ').map(text).collect();
        self.take("]");
        texts
    }

    /// What stands before the first letter of this kind.
    fn split(&mut self, end: impl Fn(char) -> bool) -> &str {
        let (before, rest) = self.0.split_at(self.0.find(end).unwrap_or(self.0.len()));
        self.0 = rest;
        before
    }
}

/// A part by itself stands for itself.
fn one_or(mut parts: Vec<Condition>, several: impl Fn(Vec<Condition>) -> Condition) -> Condition {
    if parts.len() == 1 {
        return parts.remove(0);
    }
    several(parts)
}

/// The bytes that a text or an addition stands for.
pub fn text(written: &str) -> Vec<u8> {
    written.bytes().map(|byte| if byte == b'_' { b' ' } else { byte }).collect()
}
