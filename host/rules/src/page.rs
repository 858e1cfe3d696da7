//! The page of the rules, for those who ask why a name has its keys.
use crate::table::{Row, Table};
use crate::visits::{visits, Visit};
use crate::words::visible;
use crate::{Fault, UNTAKEN};
use std::collections::HashMap;

/// A longer line is broken, for a table's column, at its semicolons; then a longer part of it at each `or`, and one that is longer
/// still at each `and`.
const LONG: usize = 140;
const LONGER: usize = 220;

/// The word that shows what `explain` tells.
const SHOWN: &str = "Mac Gregor";

/// The examples by their row and number.
type Examples<'a> = HashMap<(&'a str, usize), &'a str>;

/// The page. `lines` has the line of each case of each row. Each case but the untaken ones must have an example that takes it.
pub fn page(table: &Table, lines: &[Vec<String>], examples: &[(&str, usize, &str)]) -> Result<String, Fault> {
    let mut own = Examples::new();
    for (row, number, word) in examples {
        if own.insert((row, *number), word).is_some() {
            return Err(Fault::new(format!("host/words/src/examples.rs: case {number} of {row} has two examples")));
        }
    }
    let mut page = opening(table)?;
    for (row, lines) in table.rows.iter().zip(lines) {
        page += &format!("\n## {}\n\n", heading(row));
        page += "| No. | When | Example | Primary | Alternate | Passes over |\n|--:|---|---|---|---|--:|\n";
        for (index, (case, line)) in row.cases.iter().zip(lines).enumerate() {
            let number = index + 1;
            let example = example(table, row, number, own.remove(&(row.name(), number)))?;
            let (primary, alternate) = (added(&case.primary), added(&case.alternate));
            page += &format!("| {number} | {} | {example} | {primary} | {alternate} | {} |\n", cell(line), case.over);
        }
    }
    if let Some((row, number)) = own.keys().min() {
        return Err(Fault::new(format!("host/words/src/examples.rs: there is no case {number} of {row}")));
    }
    Ok(page)
}

/// What a desk needs before the tables.
fn opening(table: &Table) -> Result<String, Fault> {
    let asking = table.rows.iter().flat_map(|row| {
        let cases = row.cases.iter().enumerate().filter(|(_, case)| case.when.asks_edition());
        cases.map(move |(index, _)| (row.name(), index + 1))
    });
    if asking.collect::<Vec<_>>() != [("C", 4)] {
        return Err(Fault::new("the page says that the edition matters in case 4 of C and in no other, which is not so"));
    }
    let untaken: Vec<String> = UNTAKEN.iter().map(|(row, number)| format!("{row}{number}")).collect();
    let headings = table.rows.iter().map(heading);
    let tables: Vec<String> = headings.map(|heading| format!("[{heading}](#{})", anchor(&heading))).collect();
    Ok(format!(
        "\
<!-- Made by host/rules from crates/rules/specs: do not edit. `cargo run --offline -p rules` in host/ makes it anew. -->

# The letter rules

How a name gets its keys, letter by letter: the {count} cases of the definition (crates/rules/specs), in its order and by the numbers that \
`explain` tells.

A word is trimmed, a to z count as A to Z, and it is gone through from left to right, from **visit** to visit. At a visit the cases of the \
letter that stands there are tried in the order of its table, and **the first that holds speaks**. It adds to the primary and to the \
alternate key what its row says, and passes over so many of the letters that follow; the letter after those is visited next. Where a word \
begins with GN, KN, PN, WR or PS its first letter is silent, and the first visit is at the second.

`explain` lists the visits. Of {SHOWN} it tells:

{shown}
Places count from 0. The case is the number of a row in the letter's table. The text is the small number of a text in that row: {told}

Tables: {tables}.

## How to read a row

- *This* and *here* are the visited letter. *Two letters on* or *one letter back* is where a text begins, counted from it.
- A *letter* is any character of the word: a space, a digit or a hyphen is one too. ␣ is a space. Where a row asks for a letter beyond \
the word's ends there is none: it is no vowel, it is not W, and no text stands there.
- The *vowels* are A, E, I, O, U and Y. A word is *Slavo-Germanic* if it has W, K or CZ anywhere.
- A row is divided at its semicolons first, then at its commas; what stands in parentheses belongs together.
- The texts of a list have *small numbers*, in the order in which they stand. Of the numbered texts of the row that speaks, read from the \
left, `explain` tells the number of the first that stands where the row says, and 0 where none does. A text without a number is never told.
- A row asks what rphonetic asks, in its order, also where an earlier question has settled the answer.
- In an example the letter at which the case speaks is in bold type. An added 0 is the digit, and stands for the sound of TH.
- The *edition* matters in C4 alone. There edition 2 asks for words that begin with VAN or VON and a space. Edition 1 compares the first \
four letters with the three of VAN and VON, as rphonetic does, and they are never the same.
- No word takes {untaken}: each asks for a next letter that cannot be there. They stand as in rphonetic, and keep their numbers.
- The vowels and Y share a table, and so do all bytes outside A to Z.
",
        count = table.count(),
        shown = shown(table),
        told = told(table)?,
        tables = tables.join(", "),
        untaken = listed(&untaken, "or"),
    ))
}

/// The visits of the word that is shown.
fn shown(table: &Table) -> String {
    let mut rows = "| Place | Letter | Case | Text | Primary | Alternate | Passes over |\n".to_string();
    rows += "|--:|---|--:|--:|---|---|--:|\n";
    for Visit { place, letter, number, case, text, .. } in visits(table, SHOWN, false) {
        let (primary, alternate) = (added(&case.primary), added(&case.alternate));
        rows += &format!("| {place} | {letter} | {number} | {text} | {primary} | {alternate} | {} |\n", case.over);
    }
    rows
}

/// What the text's number says of the word that is shown: just one of its visits tells a text, in a row of one list.
fn told(table: &Table) -> Result<String, Fault> {
    let visits = visits(table, SHOWN, false).into_iter().filter(|visit| visit.text > 0);
    let told: Vec<_> = visits.map(|visit| (visit.letter, visit.number, visit.text, visit.case.when.windows())).collect();
    match &told[..] {
        [(letter, number, text, windows)] if windows.len() == 1 => {
            Ok(format!("in row {number} of {letter}, text {text} is {}.", visible(&windows[0].texts[text - 1])))
        }
        _ => Err(Fault::new(format!("{SHOWN}, which the page shows, does not tell just one text"))),
    }
}

fn heading(row: &Row) -> String {
    let letters: Vec<String> = row.keys.chars().map(String::from).collect();
    if letters.is_empty() {
        return "Bytes outside A to Z".to_string();
    }
    listed(&letters, "and")
}

/// What a heading is called in a link.
fn anchor(heading: &str) -> String {
    heading.to_ascii_lowercase().replace(',', "").replace(' ', "-")
}

fn listed(names: &[String], joint: &str) -> String {
    match names {
        [names @ .., last] if !names.is_empty() => format!("{} {joint} {last}", names.join(", ")),
        names => names.concat(),
    }
}

fn added(text: &str) -> String {
    match text {
        "" => "nothing".to_string(),
        " " => "a space".to_string(),
        text => visible(text),
    }
}

/// The example with the visited letter in bold. It is looked for by edition 1, and must take the case.
fn example(table: &Table, row: &Row, number: usize, word: Option<&str>) -> Result<String, Fault> {
    let fault = |what: &str| Err(Fault::new(format!("host/words/src/examples.rs: case {number} of {} {what}", row.name())));
    let word = match (word, UNTAKEN.contains(&(row.name(), number))) {
        (None, true) => return Ok("no word takes it".to_string()),
        (Some(_), true) => return fault("has an example, and is one that no word takes"),
        (None, false) => return fault("has no example"),
        (Some(word), false) => word,
    };
    if !word.is_ascii() || word.trim() != word {
        return fault(&format!("has an example that is not a trimmed ASCII word: {word}"));
    }
    let Some(visit) = visits(table, word, false).into_iter().find(|visit| (visit.row, visit.number) == (row, number)) else {
        return fault(&format!("has an example that does not take it: {word}"));
    };
    let (before, from) = word.split_at(visit.place);
    let (letter, behind) = from.split_at(1);
    let (before, behind) = (escaped(before), escaped(behind));
    if !letter.bytes().all(|byte| byte.is_ascii_alphanumeric()) {
        // Markdown has no bold sign or space inside a word.
        return Ok(format!("{before}{}{behind}", escaped(&visible(letter))));
    }
    Ok(format!("{before}**{letter}**{behind}"))
}

/// A line in a cell of a table.
fn cell(line: &str) -> String {
    let length = |part: &str| part.chars().count();
    if length(line) <= LONG {
        return escaped(line);
    }
    let mut parts = broken(line, "; and ", "; or ");
    for (long, joint) in [(LONG, ", or "), (LONGER, ", and ")] {
        let finer = parts.into_iter().map(|part| if length(part) > long { broken(part, joint, joint) } else { vec![part] });
        parts = finer.collect::<Vec<_>>().concat();
    }
    parts.into_iter().map(escaped).collect::<Vec<_>>().join("<br>")
}

/// Breaks a line at each of two joints that stands outside all parentheses, behind its comma or semicolon.
fn broken<'a>(line: &'a str, first: &str, second: &str) -> Vec<&'a str> {
    let (mut parts, mut from, mut depth) = (Vec::new(), 0, 0);
    for (index, letter) in line.char_indices() {
        match letter {
            '(' => depth += 1,
            ')' => depth -= 1,
            _ if depth == 0 && (line[index..].starts_with(first) || line[index..].starts_with(second)) => {
                parts.push(&line[from..=index]);
                from = index + 2;
            }
            _ => {}
        }
    }
    parts.push(&line[from..]);
    parts
}

/// What Markdown would take for its own is kept as it is.
fn escaped(text: &str) -> String {
    let mut escaped = String::new();
    for letter in text.chars() {
        if "\\|*_`<[".contains(letter) {
            escaped.push('\\');
        }
        escaped.push(letter);
    }
    escaped
}
