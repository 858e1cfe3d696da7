//! The cases of the letter rules in words, for those who ask which one spoke. The data, crate::cases, is made from the definition.
use crate::cases::LETTERS;

/// Where a window begins: so many bytes ahead of the visited place, back from it, from the word's front, or before its end.
pub(crate) enum Spot {
    Ahead(usize),
    Back(usize),
    Front(usize),
    Rear(usize),
}

/// A window test: the bytes there, as many as the width, are one of the texts.
pub(crate) struct Window {
    pub spot: Spot,
    pub width: usize,
    pub texts: &'static [&'static str],
}

/// A case: its condition in words, and the window tests of its condition in order, but for those under a not. What it adds and passes
/// over a row tells itself.
pub(crate) struct Case {
    pub when: &'static str,
    pub windows: &'static [Window],
}

/// The letters that share their cases. The last has no letters: it is for all bytes outside A to Z.
pub(crate) struct Letter {
    pub keys: &'static str,
    pub cases: &'static [Case],
}

/// The case of a letter by its number, from 1; a to z count as A to Z.
pub(crate) fn case(letter: u8, number: usize) -> Option<&'static Case> {
    let letter = letter.to_ascii_uppercase();
    let row = LETTERS.iter().find(|row| row.keys.is_empty() || row.keys.as_bytes().contains(&letter))?;
    row.cases.get(number.checked_sub(1)?)
}

/// The text that a case tells by its number, from 1, at a place of a trimmed word: that of the first window, in order, whose text of that
/// number stands there.
pub(crate) fn matched(case: &Case, word: &[u8], place: usize, text: usize) -> Option<&'static str> {
    let index = text.checked_sub(1)?;
    case.windows.iter().find_map(|window| {
        let text = *window.texts.get(index)?;
        seen(window, word, place)?.eq_ignore_ascii_case(text.as_bytes()).then_some(text)
    })
}

/// The bytes that a window shows, if it lies inside the word.
fn seen<'a>(window: &Window, word: &'a [u8], place: usize) -> Option<&'a [u8]> {
    let start = match window.spot {
        Spot::Ahead(k) => place.checked_add(k)?,
        Spot::Back(k) => place.checked_sub(k)?,
        Spot::Front(k) => k,
        Spot::Rear(k) => word.len().checked_sub(k)?,
    };
    word.get(start..start.checked_add(window.width)?)
}
