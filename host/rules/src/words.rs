//! Conditions in words. A line says what the condition asks, test by test in its order, so that it can be read back, which the tests do.
//! `this` and `here` are the visited letter. Each text of a list has its number behind it, in small figures, but for those under a `non`,
//! which are never told. A `non` is said of the tests inside it where that is plainer: of what an `or` joins, of another `non`, and of what
//! an `&` joins if one of these is a `non`. A line is divided at its semicolons, then at its commas; parentheses keep things together.
use crate::table::{Cond, Spot, Table, Window};
use crate::Fault;

const NUMBERS: [&str; 10] = ["one", "two", "three", "four", "five", "six", "seven", "eight", "nine", "ten"];
const ORDINALS: [&str; 10] = ["first", "second", "third", "fourth", "fifth", "sixth", "seventh", "eighth", "ninth", "tenth"];
const SMALL: [char; 10] = ['⁰', '¹', '²', '³', '⁴', '⁵', '⁶', '⁷', '⁸', '⁹'];

/// Why there are no words for a condition.
type NoWords = String;

/// The line of each case of each row.
pub fn lines(table: &Table) -> Result<Vec<Vec<String>>, Fault> {
    let rows = table.rows.iter().map(|row| {
        let alone = row.cases.len() == 1;
        let lines = row.cases.iter().map(|case| match &case.when {
            Cond::Always if alone => Ok("always".to_string()),
            Cond::Always => Ok("otherwise".to_string()),
            when => line(when).map_err(|what| Fault::new(format!("{}: {what}", case.at))),
        });
        lines.collect()
    });
    rows.collect()
}

/// The text as the page shows it: a space is made visible.
pub fn visible(text: &str) -> String {
    text.replace(' ', "␣")
}

fn line(cond: &Cond) -> Result<String, NoWords> {
    let said = said(cond, true, true)?;
    match &said {
        Said::Joined(joint, parts) if parts.iter().any(Said::is_joined) => {
            let parts = parts.iter().map(Said::words).collect::<Result<Vec<_>, _>>()?;
            Ok(parts.join(&format!("; {joint} ")))
        }
        _ => said.words(),
    }
}

/// What is said of a condition.
enum Said {
    Clause(String),
    /// The letter at the spot is one of these, or is none of them.
    Letter(Spot, Vec<char>, bool),
    /// Two or more, joined by `and` or by `or`.
    Joined(&'static str, Vec<Said>),
    Not(Box<Said>),
}

impl Said {
    fn is_joined(&self) -> bool {
        matches!(self, Said::Joined(..))
    }

    fn words(&self) -> Result<String, NoWords> {
        match self {
            Said::Clause(words) => Ok(words.clone()),
            Said::Letter(spot, letters, holds) => {
                let letters: Vec<String> = letters.iter().map(|letter| character(*letter)).collect();
                Ok(format!("{} is {}", letter(*spot)?, listed(&letters, *holds)))
            }
            Said::Joined(joint, parts) => {
                let parts = parts.iter().map(|part| {
                    let words = part.words()?;
                    Ok(if part.is_joined() { format!("({words})") } else { words })
                });
                Ok(parts.collect::<Result<Vec<String>, NoWords>>()?.join(&format!(", {joint} ")))
            }
            Said::Not(part) => Ok(format!("not ({})", part.words()?)),
        }
    }
}

/// What is said where a condition holds, or where it does not. `told` is whether its window tests tell their texts.
fn said(cond: &Cond, holds: bool, told: bool) -> Result<Said, NoWords> {
    let each = |joint: &'static str, holds: bool| {
        let parts = operands(cond).into_iter().map(|part| said(part, holds, told));
        Ok(joined(joint, parts.collect::<Result<Vec<_>, NoWords>>()?))
    };
    match cond {
        Cond::Non(inner) => said(inner, !holds, false),
        Cond::Or(..) if holds => each("or", true),
        Cond::Or(..) => each("and", false),
        Cond::And(..) if holds => each("and", true),
        Cond::And(..) if operands(cond).iter().any(|part| matches!(part, Cond::Non(_))) => each("or", false),
        Cond::And(..) => Ok(Said::Not(Box::new(each("and", true)?))),
        Cond::Byte(spot, letter) => Ok(Said::Letter(*spot, vec![*letter], holds)),
        _ => clause(cond, holds, told).map(Said::Clause),
    }
}

/// What the one operator of a condition joins, in order.
fn operands(cond: &Cond) -> Vec<&Cond> {
    fn gather<'a>(cond: &'a Cond, like: &Cond, parts: &mut Vec<&'a Cond>) {
        match (cond, like) {
            (Cond::And(first, second), Cond::And(..)) | (Cond::Or(first, second), Cond::Or(..)) => {
                gather(first, like, parts);
                gather(second, like, parts);
            }
            _ => parts.push(cond),
        }
    }
    let mut parts = Vec::new();
    gather(cond, cond, &mut parts);
    parts
}

/// Joins parts. What is joined by the same word goes with them, and so do neighbours that name one letter: it is A or O, neither I nor E.
fn joined(joint: &'static str, parts: Vec<Said>) -> Said {
    let mut flat: Vec<Said> = Vec::new();
    for part in parts {
        match (part, flat.last_mut()) {
            (Said::Joined(own, inner), _) if own == joint => flat.extend(inner),
            (Said::Letter(spot, letters, holds), Some(Said::Letter(last, more, also)))
                if *last == spot && *also == holds && holds == (joint == "or") =>
            {
                more.extend(letters)
            }
            (part, _) => flat.push(part),
        }
    }
    if flat.len() == 1 {
        return flat.remove(0);
    }
    Said::Joined(joint, flat)
}

fn clause(cond: &Cond, holds: bool, told: bool) -> Result<String, NoWords> {
    let not = if holds { "" } else { "not " };
    Ok(match cond {
        Cond::Window(asked) => window(asked, holds, told)?,
        Cond::Vowel(spot) if holds => format!("{} is a vowel", letter(*spot)?),
        Cond::Vowel(spot) => format!("{} is no vowel", letter(*spot)?),
        Cond::Place(k) => format!("this is {not}the {} letter", ordinal(k + 1)?),
        Cond::Past(k) => before(k + 1, !holds)?,
        Cond::Below(k) => before(*k, holds)?,
        Cond::Left(0) => format!("this is {not}the last letter"),
        Cond::Left(1) if holds => "exactly one letter follows".to_string(),
        Cond::Left(k) if holds => format!("exactly {} letters follow", number(*k)?),
        Cond::Long(n) if holds => format!("the word has exactly {} letters", number(*n)?),
        Cond::Slavo if holds => "the word is Slavo-Germanic (has W, K or CZ)".to_string(),
        Cond::Slavo => "the word is not Slavo-Germanic (has no W, K or CZ)".to_string(),
        Cond::Edition2 if holds => "the edition is 2".to_string(),
        Cond::Edition2 => "the edition is 1".to_string(),
        _ => return Err(format!("there are no words for {}{cond:?}", if holds { "" } else { "a `non` of " })),
    })
}

/// The place is below `n`, or it is not.
fn before(n: usize, holds: bool) -> Result<String, NoWords> {
    Ok(match (n, holds) {
        (1, true) => "this is the first letter".to_string(),
        (1, false) => "this is not the first letter".to_string(),
        (2, true) => "this is the first or second letter".to_string(),
        (0, _) | (_, true) => return Err(format!("there are no words for a place below {n}")),
        (n, false) => format!("this is the {} letter or later", ordinal(n + 1)?),
    })
}

fn window(window: &Window, holds: bool, told: bool) -> Result<String, NoWords> {
    let Window { spot, width, texts } = window;
    if texts.iter().all(|text| text.len() != *width) && *spot == Spot::Front(0) && holds {
        let texts: Vec<String> = texts.iter().map(|text| visible(text)).collect();
        return Ok(format!("the word's first {} letters are {} (never so)", number(*width)?, listed(&texts, true)));
    }
    if texts.is_empty() || texts.iter().any(|text| text.len() != *width) {
        return Err(format!("there are no words for a window of width {width} and texts of other lengths"));
    }
    let numbered = |(index, text): (usize, &String)| visible(text) + &if told { small(index + 1) } else { String::new() };
    let texts: Vec<String> = texts.iter().enumerate().map(numbered).collect();
    let list = listed(&texts, holds);
    let does_not = list.strip_prefix("not ");
    Ok(match (*spot, does_not) {
        (Spot::Ahead(0), None) => format!("{list} stands here"),
        (Spot::Ahead(0), Some(text)) => format!("{text} does not stand here"),
        (Spot::Ahead(1), None) => format!("{list} comes next"),
        (Spot::Ahead(1), Some(text)) => format!("{text} does not come next"),
        (Spot::Ahead(k), _) => format!("{} letters on: {list}", number(k)?),
        (Spot::Back(1), _) => format!("one letter back: {list}"),
        (Spot::Back(k), _) => format!("{} letters back: {list}", number(k)?),
        (Spot::Front(0), None) => format!("the word begins with {list}"),
        (Spot::Front(0), Some(text)) => format!("the word does not begin with {text}"),
        (Spot::Rear(k), None) if k == *width => format!("the word ends with {list}"),
        (spot, _) => return Err(format!("there are no words for a window of width {width} at {spot:?}")),
    })
}

/// The letter at a spot.
fn letter(spot: Spot) -> Result<String, NoWords> {
    Ok(match spot {
        Spot::Ahead(1) => "the next letter".to_string(),
        Spot::Back(1) => "the letter before".to_string(),
        Spot::Ahead(k) if k > 1 => format!("the letter {} on", number(k)?),
        Spot::Back(k) if k > 1 => format!("the letter {} back", number(k)?),
        Spot::Front(k) => format!("the word's {} letter", ordinal(k + 1)?),
        _ => return Err(format!("there are no words for a letter at {spot:?}")),
    })
}

fn character(letter: char) -> String {
    if letter == ' ' {
        return "a space".to_string();
    }
    letter.to_string()
}

/// One of these, or none of them.
fn listed(texts: &[String], holds: bool) -> String {
    match (texts, holds) {
        ([text], true) => text.clone(),
        ([text], false) => format!("not {text}"),
        ([texts @ .., last], true) => format!("{} or {last}", texts.join(", ")),
        ([first, second], false) => format!("neither {first} nor {second}"),
        (texts, _) => format!("none of {}", texts.join(", ")),
    }
}

fn number(n: usize) -> Result<&'static str, NoWords> {
    let word = n.checked_sub(1).and_then(|index| NUMBERS.get(index));
    word.copied().ok_or_else(|| format!("there is no word for the number {n}"))
}

fn ordinal(n: usize) -> Result<&'static str, NoWords> {
    let word = n.checked_sub(1).and_then(|index| ORDINALS.get(index));
    word.copied().ok_or_else(|| format!("there is no word for the letter number {n}"))
}

/// A number in small figures.
fn small(n: usize) -> String {
    n.to_string().bytes().map(|digit| SMALL[usize::from(digit - b'0')]).collect()
}
