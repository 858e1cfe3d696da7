//! The visits of a word by the table, as crates/rules/specs (`holds`, `text_of`, `speaker`) and crates/walk/specs (`places`) have them.
use crate::{Case, Cond, Row, Spot, Table};

/// A visit: its place, the letter in capitals, its row and the case that spoke, by its number too, and the number of the text that
/// matched, or 0.
pub struct Visit<'a> {
    pub place: usize,
    pub letter: char,
    pub row: &'a Row,
    pub number: usize,
    pub case: &'a Case,
    pub text: usize,
}

/// What a condition is asked of: a trimmed word in capitals, a place, the Slavo-Germanic mark, and whether the edition is the second.
struct Asked<'a> {
    word: &'a [u8],
    place: usize,
    mark: bool,
    second: bool,
}

/// The visits of a trimmed word, in order.
pub fn visits<'a>(table: &'a Table, word: &str, second: bool) -> Vec<Visit<'a>> {
    let word = word.to_ascii_uppercase();
    let mark = ["W", "K", "CZ", "WITZ"].iter().any(|text| word.contains(text));
    let silent = ["GN", "KN", "PN", "WR", "PS"].iter().any(|text| word.starts_with(text));
    let mut visits = Vec::new();
    let mut place = usize::from(silent);
    while place < word.len() {
        let asked = Asked { word: word.as_bytes(), place, mark, second };
        let letter = char::from(asked.word[place]);
        let row = table.row(asked.word[place]);
        let index = row.cases.iter().position(|case| asked.holds(&case.when)).expect("the last case of a row always holds");
        let case = &row.cases[index];
        visits.push(Visit { place, letter, row, number: index + 1, case, text: asked.text(&case.when) });
        place += 1 + case.over;
    }
    visits
}

impl Asked<'_> {
    /// The bytes that a window shows, if it lies inside the word.
    fn seen(&self, spot: Spot, width: usize) -> Option<&[u8]> {
        let start = match spot {
            Spot::Ahead(k) => self.place + k,
            Spot::Back(k) => self.place.checked_sub(k)?,
            Spot::Front(k) => k,
            Spot::Rear(k) => self.word.len().checked_sub(k)?,
        };
        self.word.get(start..start + width)
    }

    fn holds(&self, cond: &Cond) -> bool {
        match cond {
            Cond::Always => true,
            Cond::Window(_) => self.text(cond) > 0,
            Cond::Byte(spot, letter) => self.seen(*spot, 1).is_some_and(|seen| seen[0] == *letter as u8),
            Cond::Vowel(spot) => self.seen(*spot, 1).is_some_and(|seen| b"AEIOUY".contains(&seen[0])),
            Cond::Place(k) => self.place == *k,
            Cond::Past(k) => self.place > *k,
            Cond::Below(k) => self.place < *k,
            Cond::Left(k) => self.place + k + 1 == self.word.len(),
            Cond::Long(n) => self.word.len() == *n,
            Cond::Slavo => self.mark,
            Cond::Edition2 => self.second,
            Cond::Non(cond) => !self.holds(cond),
            Cond::And(first, second) => self.holds(first) && self.holds(second),
            Cond::Or(first, second) => self.holds(first) || self.holds(second),
        }
    }

    /// The number, from 1, of the text that the first matching window of the condition is, or 0.
    fn text(&self, cond: &Cond) -> usize {
        let texts = cond.windows().into_iter().filter_map(|window| {
            let seen = self.seen(window.spot, window.width)?;
            window.texts.iter().position(|text| text.as_bytes() == seen)
        });
        texts.map(|index| index + 1).next().unwrap_or(0)
    }
}
