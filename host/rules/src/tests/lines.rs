//! Every line is read back, and says what the definition's condition says: the same tests in the same order, joined by the same `and` and
//! `or`, with the numbers of those texts that are told. Only where a `non` stands is left open: on both sides it is said of the tests.
use super::root;
use crate::table::{Cond, Spot};
use crate::{files, read, words};

#[derive(Clone, Debug, PartialEq, Eq)]
enum Plain {
    Test(String),
    Joined(Joint, Vec<Plain>),
}

#[derive(Clone, Copy, Debug, PartialEq, Eq)]
enum Joint {
    And,
    Or,
}

impl Joint {
    /// What a `non` makes of it.
    fn under(self, holds: bool) -> Joint {
        match (self, holds) {
            (Joint::And, true) | (Joint::Or, false) => Joint::And,
            _ => Joint::Or,
        }
    }
}

/// What is joined by the same word is one list.
fn join(joint: Joint, parts: Vec<Plain>) -> Plain {
    let mut flat = Vec::new();
    for part in parts {
        match part {
            Plain::Joined(own, inner) if own == joint => flat.extend(inner),
            part => flat.push(part),
        }
    }
    if flat.len() == 1 {
        return flat.remove(0);
    }
    Plain::Joined(joint, flat)
}

/// A test that holds or does not.
fn test(holds: bool, what: String) -> Plain {
    Plain::Test(if holds { what } else { format!("not {what}") })
}

fn byte(holds: bool, spot: Spot, letter: char) -> Plain {
    test(holds, format!("byte {spot:?} {letter:?}"))
}

fn vowel(holds: bool, spot: Spot) -> Plain {
    test(holds, format!("vowel {spot:?}"))
}

fn window(holds: bool, told: bool, spot: Spot, width: usize, texts: &[String]) -> Plain {
    test(holds, format!("window {spot:?} {width} {texts:?} told: {told}"))
}

/// The place is below `k`.
fn below(holds: bool, k: usize) -> Plain {
    test(holds, format!("below {k}"))
}

fn of_cond(cond: &Cond, holds: bool, told: bool) -> Plain {
    match cond {
        Cond::Always => test(holds, "always".to_string()),
        Cond::Window(own) => window(holds, told, own.spot, own.width, &own.texts),
        Cond::Byte(spot, letter) => byte(holds, *spot, *letter),
        Cond::Vowel(spot) => vowel(holds, *spot),
        Cond::Place(0) => below(holds, 1),
        Cond::Place(k) => test(holds, format!("place {k}")),
        Cond::Past(k) => below(!holds, k + 1),
        Cond::Below(k) => below(holds, *k),
        Cond::Left(k) => test(holds, format!("left {k}")),
        Cond::Long(n) => test(holds, format!("long {n}")),
        Cond::Slavo => test(holds, "slavo".to_string()),
        Cond::Edition2 => test(holds, "edition2".to_string()),
        Cond::Non(cond) => of_cond(cond, !holds, false),
        Cond::And(first, second) => {
            join(Joint::And.under(holds), vec![of_cond(first, holds, told), of_cond(second, holds, told)])
        }
        Cond::Or(first, second) => {
            join(Joint::Or.under(holds), vec![of_cond(first, holds, told), of_cond(second, holds, told)])
        }
    }
}

fn of_line(line: &str) -> Plain {
    divided(line, ["; and ", "; or "], true, |part| divided(part, [", and ", ", or "], true, |part| of_part(part, true)))
}

/// Divides a text at one of two joints, outside all parentheses; both may not stand there.
fn divided(text: &str, joints: [&str; 2], holds: bool, of: impl Fn(&str) -> Plain) -> Plain {
    let (mut parts, mut met, mut from, mut depth) = (Vec::new(), Vec::new(), 0, 0);
    for (index, letter) in text.char_indices() {
        depth += i32::from(letter == '(') - i32::from(letter == ')');
        let joint = joints.iter().position(|joint| depth == 0 && text[index..].starts_with(joint));
        if let Some(joint) = joint {
            parts.push(of(&text[from..index]));
            from = index + joints[joint].len();
            met.push(joint);
        }
    }
    parts.push(of(&text[from..]));
    met.dedup();
    assert!(met.len() < 2, "an `and` beside an `or`: {text}");
    let joint = if met == [1] { Joint::Or } else { Joint::And };
    join(joint.under(holds), parts)
}

fn of_part(part: &str, holds: bool) -> Plain {
    let inner = |part: &str, holds| divided(part, [", and ", ", or "], holds, |part| of_part(part, holds));
    if let Some(part) = part.strip_prefix('(') {
        return inner(part.strip_suffix(')').unwrap(), holds);
    }
    if let Some(part) = part.strip_prefix("not (") {
        return inner(part.strip_suffix(')').unwrap(), !holds);
    }
    of_clause(part, holds).unwrap_or_else(|| panic!("not read back: {part}"))
}

fn of_clause(clause: &str, holds: bool) -> Option<Plain> {
    let same = |what: &str| test(holds, what.to_string());
    match clause {
        "otherwise" | "always" => return Some(same("always")),
        "exactly one letter follows" => return Some(same("left 1")),
        "the edition is 1" => return Some(test(!holds, "edition2".to_string())),
        "the edition is 2" => return Some(same("edition2")),
        "the word is Slavo-Germanic (has W, K or CZ)" => return Some(same("slavo")),
        "the word is not Slavo-Germanic (has no W, K or CZ)" => return Some(test(!holds, "slavo".to_string())),
        _ => {}
    }
    if let Some(rest) = clause.strip_prefix("this is ") {
        return of_place(rest, holds);
    }
    let between = |before: &str, behind: &str| clause.strip_prefix(before)?.strip_suffix(behind);
    if let Some(rest) = between("exactly ", " letters follow") {
        return Some(test(holds, format!("left {}", number(rest)?)));
    }
    if let Some(rest) = between("the word has exactly ", " letters") {
        return Some(test(holds, format!("long {}", number(rest)?)));
    }
    if let Some(rest) = between("the word's first ", " (never so)") {
        let (width, texts) = rest.split_once(" letters are ")?;
        let (one, texts, told) = list(texts)?;
        let width = number(width)?;
        assert!(one && !told && texts.iter().all(|text| text.len() != width));
        return Some(window(holds, true, Spot::Front(0), width, &texts));
    }
    let windows = [
        (between("the word begins with ", ""), Spot::Front(0), true),
        (between("the word does not begin with ", ""), Spot::Front(0), false),
        (between("", " stands here"), Spot::Ahead(0), true),
        (between("", " does not stand here"), Spot::Ahead(0), false),
        (between("", " comes next"), Spot::Ahead(1), true),
        (between("", " does not come next"), Spot::Ahead(1), false),
    ];
    for (texts, spot, is) in windows {
        if let Some((one, texts, told)) = texts.and_then(list) {
            return Some(window(holds == (is == one), told, spot, texts[0].len(), &texts));
        }
    }
    if let Some((one, texts, told)) = between("the word ends with ", "").and_then(list) {
        return Some(window(holds == one, told, Spot::Rear(texts[0].len()), texts[0].len(), &texts));
    }
    if let Some((place, texts)) = clause.split_once(": ") {
        let (one, texts, told) = list(texts)?;
        let (count, way) = place.split_once(' ')?;
        let spot = match (way, number(count)?) {
            ("letter back", 1) => Spot::Back(1),
            ("letters back", k) if k > 1 => Spot::Back(k),
            ("letters on", k) if k > 1 => Spot::Ahead(k),
            _ => return None,
        };
        return Some(window(holds == one, told, spot, texts[0].len(), &texts));
    }
    let (letter, what) = clause.split_once(" is ")?;
    of_letter(spot(letter)?, what, holds)
}

/// What the visited letter is.
fn of_place(what: &str, holds: bool) -> Option<Plain> {
    match what {
        "the first letter" => return Some(below(holds, 1)),
        "not the first letter" => return Some(below(!holds, 1)),
        "the first or second letter" => return Some(below(holds, 2)),
        "the last letter" => return Some(test(holds, "left 0".to_string())),
        "not the last letter" => return Some(test(!holds, "left 0".to_string())),
        _ => {}
    }
    let rest = what.strip_prefix("the ")?;
    if let Some(rest) = rest.strip_suffix(" letter or later") {
        return Some(below(!holds, ordinal(rest)? - 1));
    }
    Some(test(holds, format!("place {}", ordinal(rest.strip_suffix(" letter")?)? - 1)))
}

fn of_letter(spot: Spot, what: &str, holds: bool) -> Option<Plain> {
    match what {
        "a vowel" => return Some(vowel(holds, spot)),
        "no vowel" => return Some(vowel(!holds, spot)),
        "a space" => return Some(byte(holds, spot, ' ')),
        _ => {}
    }
    let (one, letters, told) = list(what)?;
    assert!(!told && letters.iter().all(|letter| letter.len() == 1));
    let holds = holds == one;
    let letters = letters.iter().map(|letter| byte(holds, spot, letter.chars().next().unwrap())).collect();
    Some(join(Joint::Or.under(holds), letters))
}

fn spot(letter: &str) -> Option<Spot> {
    match letter {
        "the next letter" => return Some(Spot::Ahead(1)),
        "the letter before" => return Some(Spot::Back(1)),
        _ => {}
    }
    if let Some(rest) = letter.strip_prefix("the word's ") {
        return Some(Spot::Front(ordinal(rest.strip_suffix(" letter")?)? - 1));
    }
    let (count, way) = letter.strip_prefix("the letter ")?.split_once(' ')?;
    match way {
        "on" => Some(Spot::Ahead(number(count)?)),
        "back" => Some(Spot::Back(number(count)?)),
        _ => None,
    }
}

/// The texts of a list, whether it is one of them and not none, and whether they are told: each then has its number.
fn list(words: &str) -> Option<(bool, Vec<String>, bool)> {
    let (one, texts): (bool, Vec<&str>) = if let Some(text) = words.strip_prefix("not ") {
        (false, vec![text])
    } else if let Some(texts) = words.strip_prefix("neither ") {
        let (first, second) = texts.split_once(" nor ")?;
        (false, vec![first, second])
    } else if let Some(texts) = words.strip_prefix("none of ") {
        (false, texts.split(", ").collect())
    } else if let Some((texts, last)) = words.split_once(" or ") {
        (true, texts.split(", ").chain([last]).collect())
    } else {
        (true, vec![words])
    };
    let numbers: Vec<String> = texts.iter().map(|text| text.chars().filter_map(small).collect()).collect();
    let told = !numbers[0].is_empty();
    let wanted = |index: usize| if told { (index + 1).to_string() } else { String::new() };
    if !numbers.iter().enumerate().all(|(index, number)| *number == wanted(index)) {
        return None;
    }
    let texts = texts.iter().map(|text| text.chars().filter(|letter| small(*letter).is_none()).collect::<String>());
    let texts: Vec<String> = texts.map(|text| text.replace('␣', " ")).collect();
    let good = |text: &String| !text.is_empty() && text.bytes().all(|byte| byte == b' ' || byte.is_ascii_uppercase());
    texts.iter().all(good).then_some((one, texts, told))
}

fn small(letter: char) -> Option<char> {
    let index = "⁰¹²³⁴⁵⁶⁷⁸⁹".chars().position(|own| own == letter)?;
    char::from_digit(index as u32, 10)
}

fn number(word: &str) -> Option<usize> {
    ["one", "two", "three", "four", "five"].iter().position(|own| *own == word).map(|index| index + 1)
}

fn ordinal(word: &str) -> Option<usize> {
    ["first", "second", "third", "fourth", "fifth"].iter().position(|own| *own == word).map(|index| index + 1)
}

#[test]
fn every_line_is_read_back() {
    let table = read(&files(&root())).unwrap_or_else(|fault| panic!("{fault}"));
    let lines = words::lines(&table).unwrap_or_else(|fault| panic!("{fault}"));
    for (row, lines) in table.rows.iter().zip(lines) {
        assert_eq!(row.cases.len(), lines.len());
        for (case, line) in row.cases.iter().zip(lines) {
            assert_eq!(of_line(&line), of_cond(&case.when, true, true), "{line}");
        }
    }
}

/// Some lines as they are read.
#[test]
fn lines_by_hand() {
    let table = read(&files(&root())).unwrap_or_else(|fault| panic!("{fault}"));
    let lines = words::lines(&table).unwrap_or_else(|fault| panic!("{fault}"));
    let line = |row: &str, number: usize| {
        let index = table.rows.iter().position(|own| own.name() == row).unwrap();
        lines[index][number - 1].as_str()
    };
    assert_eq!(line("A", 1), "this is the first letter");
    assert_eq!(line("A", 2), "otherwise");
    assert_eq!(line("rest", 1), "always");
    assert_eq!(line("B", 1), "the next letter is B");
    assert_eq!(line("C", 3), "CH¹ stands here, and this is not the first letter, and CHAE¹ stands here");
    assert_eq!(line("C", 16), "␣C¹, ␣Q² or ␣G³ comes next");
    assert_eq!(line("C", 17), "C¹, K² or Q³ comes next, and neither CE nor CI comes next");
    assert_eq!(line("H", 1), "this is the first letter, or the letter before is a vowel; and the next letter is a vowel");
    assert_eq!(line("J", 8), "this is the last letter");
    let chia = "CHIA¹ stands here; or this is not the first letter, and this is the third letter or later, and the letter two back is \
                no vowel, and (this is the first letter, or one letter back: ACH), and this is the third letter or later, and (the \
                letter two on is neither I nor E, or two letters back: BACHER¹ or MACHER²)";
    assert_eq!(line("C", 1), chia);
    let breaux =
        "not (this is the last letter, and ((this is the fourth letter or later, and three letters back: IAU or EAU), or \
                  (this is the third letter or later, and two letters back: AU or OU)))";
    assert_eq!(line("X", 3), breaux);
}
