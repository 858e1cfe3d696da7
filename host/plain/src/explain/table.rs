//! The table of the 119 cases, read from cases.txt.
use super::condition::{Condition, Window};
use super::notation;
use super::word::{is_vowel, Word};
use std::sync::OnceLock;

const CASES: &str = include_str!("cases.txt");

/// The test of case 4 of C that compares four bytes with three-letter texts and never holds, and as edition 2 reads it (document 02, L4).
const NEVER_HOLDS: &str = "front(width 4)[VAN VON]";
const AS_ELSEWHERE: &str = "front[VAN_ VON_]";

/// One way through the rules of a letter.
pub struct Case {
    pub condition: Condition,
    /// The windows that may tell a text.
    pub telling: Vec<Window>,
    pub primary: Vec<u8>,
    pub alternate: Vec<u8>,
    pub over: usize,
}

impl Case {
    /// The first of its windows that is one of its texts, from 0, and that text's number, from 1. Whether a condition that stops early
    /// would come to that window does not matter.
    pub fn told(&self, word: &Word, place: usize) -> Option<(usize, usize)> {
        let matched = |(index, window): (usize, &Window)| Some((index, window.matched(word, place)?));
        self.telling.iter().enumerate().find_map(matched)
    }
}

/// The cases of one letter; those of A are the vowels' and Y's, those of `rest` the ones of every byte outside A to Z.
pub struct Letter {
    pub key: String,
    pub cases: Vec<Case>,
}

pub struct Table {
    pub letters: Vec<Letter>,
    /// Where each byte's letter is in the list.
    index: Vec<usize>,
}

impl Table {
    /// The table of an edition, where there is such an edition.
    pub fn of(edition: u64) -> Option<&'static Table> {
        static TABLES: OnceLock<[Table; 2]> = OnceLock::new();
        let tables = TABLES.get_or_init(|| {
            assert_eq!(CASES.matches(NEVER_HOLDS).count(), 1);
            [Table::read(CASES), Table::read(&CASES.replace(NEVER_HOLDS, AS_ELSEWHERE))]
        });
        match edition {
            1 => Some(&tables[0]),
            2 => Some(&tables[1]),
            _ => None,
        }
    }

    /// The cases of a byte.
    pub fn cases(&self, byte: u8) -> &[Case] {
        &self.letters[self.index[usize::from(byte)]].cases
    }

    fn read(text: &str) -> Table {
        let mut lines = text.lines().peekable();
        let mut letters = Vec::new();
        while let Some(line) = lines.next() {
            if let Some(total) = line.strip_prefix("total ") {
                let count: usize = letters.iter().map(|letter: &Letter| letter.cases.len()).sum();
                assert_eq!(total, format!("{count} cases"));
                break;
            }
            let (key, count) = line.split_once(' ').expect("a letter and its count");
            let mut cases = Vec::new();
            while let Some(line) = lines.next_if(|line| line.starts_with(' ')) {
                cases.push(case(line, cases.len() + 1));
            }
            assert_eq!(count, format!("({} cases)", cases.len()), "{key}");
            letters.push(Letter { key: key.to_string(), cases });
        }
        assert_eq!(lines.next(), None, "the total stands last");
        let index = (0..=u8::MAX).map(|byte| index_of(&letters, byte)).collect();
        Table { letters, index }
    }
}

/// A line such as ` 2 else -> P/P/0`, which must have this number.
fn case(line: &str, number: usize) -> Case {
    let (told, rest) = line.trim_start().split_once(' ').expect("a number and a case");
    assert_eq!(told, number.to_string());
    let (condition, adds) = rest.split_once(" -> ").expect("a condition and what it adds");
    let [primary, alternate, over] = adds.split('/').collect::<Vec<_>>()[..] else { panic!("{adds:?} has three parts") };
    let condition = notation::condition(condition);
    let telling = condition.telling().into_iter().cloned().collect();
    Case { condition, telling, primary: gain(primary), alternate: gain(alternate), over: over.parse().expect("a number") }
}

fn gain(written: &str) -> Vec<u8> {
    if written == "-" {
        return Vec::new();
    }
    notation::text(written)
}

fn index_of(letters: &[Letter], byte: u8) -> usize {
    let key = match byte {
        _ if is_vowel(byte) => "A".to_string(),
        b'A'..=b'Z' => char::from(byte).to_string(),
        _ => "rest".to_string(),
    };
    letters.iter().position(|letter| letter.key == key).expect("each byte has cases")
}
