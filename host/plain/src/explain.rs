//! Which rule spoke at each visit of a word (document 02, L6), in plain Rust: the table of the 119 cases as text, a reader of its
//! notation, and a walk that tries the cases of each letter in turn. It is written from that table and from document 01's words, and not
//! from the proved code or its definition, so that it can stand beside the library's listing as its outside witness.
mod condition;
mod notation;
mod table;
mod word;

use crate::{Fault, NAME_LIMIT, NOT_ASCII, ROOM_SHORT, TOO_LONG, UNKNOWN};
use table::{Case, Table};
use word::Word;

/// One visit of a word.
#[derive(Clone, Copy, Debug, PartialEq, Eq)]
pub struct Row {
    /// Where the visit looked, from the trimmed front.
    pub place: u32,
    /// The byte as it counts: a to z as A to Z, any other as it is.
    pub letter: u32,
    /// The number of the case that spoke, from 1, among those of the letter.
    pub case: u32,
    /// The number of the text that the case's first matching window is, from 1, or 0.
    pub text: u32,
    /// What the primary code gained before clipping: 0 for nothing, the byte, or the first byte plus 256 times the second.
    pub primary: u32,
    /// The same of the alternate code.
    pub alternate: u32,
    /// How many further bytes were passed over.
    pub over: u32,
}

impl Row {
    /// The row as a list of numbers has it.
    pub fn numbers(&self) -> [u32; 7] {
        [self.place, self.letter, self.case, self.text, self.primary, self.alternate, self.over]
    }
}

/// Why a word is not explained.
#[derive(Clone, Copy, Debug, PartialEq, Eq)]
pub struct Refused {
    pub number: Fault,
    /// Under [`NOT_ASCII`] the place of the first such byte in the word as lent, else 0.
    pub place: usize,
}

/// What is listed of a word, or why it is refused.
pub type Listed = Result<Vec<Row>, Refused>;

/// The visits of a word under an edition and a limit, in order, where a room holds as many rows. It is refused, by the first that is so,
/// for an edition that is not known, a word over [`NAME_LIMIT`] bytes before trimming, a byte that is not ASCII, and too small a room.
pub fn explain(edition: u64, word: &[u8], limit: Option<u64>, room_rows: usize) -> Listed {
    in_room(&listed(edition, word, limit), room_rows).map(<[Row]>::to_vec)
}

/// The last of these refusals: of rows that were listed, where a room does not hold them all.
pub fn in_room(listed: &Listed, room_rows: usize) -> Result<&[Row], Refused> {
    match listed {
        Err(refused) => Err(*refused),
        Ok(rows) if rows.len() > room_rows => Err(Refused { number: ROOM_SHORT, place: 0 }),
        Ok(rows) => Ok(rows),
    }
}

/// The visits of a word as [`explain`] has them, in room enough.
pub fn listed(edition: u64, word: &[u8], limit: Option<u64>) -> Listed {
    let refused = |number, place| Err(Refused { number, place });
    let Some(table) = Table::of(edition) else { return refused(UNKNOWN, 0) };
    if word.len() > NAME_LIMIT {
        return refused(TOO_LONG, 0);
    }
    if let Some(place) = word.iter().position(|byte| !byte.is_ascii()) {
        return refused(NOT_ASCII, place);
    }
    Ok(visits(table, &Word::new(word), limit))
}

/// Both codes that rows make: what they gained, joined and clipped to the limit.
pub fn codes(rows: &[Row], limit: Option<u64>) -> (Vec<u8>, Vec<u8>) {
    let clipped = |gain: fn(&Row) -> u32| {
        let whole = rows.iter().map(gain).flat_map(|gain| [gain % 256, gain / 256]).filter(|byte| *byte != 0);
        let limit = limit.and_then(|limit| usize::try_from(limit).ok()).unwrap_or(usize::MAX);
        whole.map(|byte| byte as u8).take(limit).collect()
    };
    (clipped(|row| row.primary), clipped(|row| row.alternate))
}

/// Goes on until it is past the end or, before the next visit, both codes have the limit's bytes.
fn visits(table: &Table, word: &Word, limit: Option<u64>) -> Vec<Row> {
    let mut rows = Vec::new();
    let (mut primary, mut alternate) = (0, 0);
    let mut place = word.start();
    while place < word.length() && limit.is_none_or(|limit| primary.min(alternate) < limit) {
        let (row, case) = visit(table, word, place);
        rows.push(row);
        primary += case.primary.len() as u64;
        alternate += case.alternate.len() as u64;
        place += 1 + case.over;
    }
    rows
}

/// The first case that holds speaks.
fn visit<'a>(table: &'a Table, word: &Word, place: usize) -> (Row, &'a Case) {
    let letter = word.byte(place as isize).expect("a visit is inside the word");
    let cases = table.cases(letter);
    let index =
        cases.iter().position(|case| case.condition.holds(word, place)).expect("the last case of a letter always holds");
    let case = &cases[index];
    let row = Row {
        place: place as u32,
        letter: letter.into(),
        case: index as u32 + 1,
        text: case.told(word, place).map_or(0, |(_, text)| text) as u32,
        primary: gain(&case.primary),
        alternate: gain(&case.alternate),
        over: case.over as u32,
    };
    (row, case)
}

fn gain(bytes: &[u8]) -> u32 {
    match *bytes {
        [] => 0,
        [one] => one.into(),
        [first, second] => u32::from(first) + 256 * u32::from(second),
        _ => panic!("a visit adds at most two bytes"),
    }
}

#[cfg(test)]
mod tests;
