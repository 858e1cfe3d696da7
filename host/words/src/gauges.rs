//! Lists like those of a field office: names, names made of syllables, and the little words that offices put around them.
use crate::{Rng, NAMES};

const BEFORE: &[&str] = &["Upper", "Lower", "North", "Old", "Bad", "Sankt", "Rio", "Lake", "Saint", "Mc"];
const BEHIND: &[&str] = &["River", "Creek", "Bridge", "Weir", "Mill", "bei Brueck", "at Ford", "Outlet", "II", "nr Gauge 7"];

#[rustfmt::skip]
const STARTS: &[&str] = &[
    "b", "br", "c", "ch", "cl", "d", "dr", "f", "g", "gh", "gl", "gn", "h", "j", "k", "kn", "l", "m", "n", "p", "ph", "qu", "r",
    "s", "sch", "sh", "st", "sz", "t", "th", "tr", "v", "w", "wh", "wr", "x", "z",
];
const MIDDLES: &[&str] = &["a", "e", "i", "o", "u", "y", "ai", "au", "ea", "ee", "ei", "ia", "ie", "oo", "ou"];
#[rustfmt::skip]
const ENDS: &[&str] = &[
    "", "", "", "ch", "ck", "d", "ff", "g", "gh", "l", "ll", "m", "mb", "n", "ng", "r", "rg", "s", "ss", "st", "t", "tch", "tz", "x",
];

/// A name of one to four syllables, with a capital.
fn made(rng: &mut Rng) -> String {
    let mut name = String::new();
    for _ in 0..1 + rng.below(4) {
        name += rng.pick(STARTS);
        name += rng.pick(MIDDLES);
        name += rng.pick(ENDS);
    }
    name[..1].make_ascii_uppercase();
    name
}

fn name(rng: &mut Rng) -> String {
    if rng.once_in(2) {
        rng.pick(NAMES).to_string()
    } else {
        made(rng)
    }
}

/// One line of a gauge list: mostly a bare name, sometimes with a word before or behind it, sometimes all in capitals.
fn gauge(rng: &mut Rng) -> String {
    let name = name(rng);
    let line = match rng.below(6) {
        0 => format!("{} {name}", rng.pick(BEFORE)),
        1 => format!("{name} {}", rng.pick(BEHIND)),
        _ => name,
    };
    if rng.once_in(8) {
        line.to_uppercase()
    } else {
        line
    }
}

/// A list of gauges, each name of [`NAMES`] at least once, in mixed order.
pub fn gauges(rng: &mut Rng, count: usize) -> Vec<String> {
    let mut list: Vec<String> = NAMES.iter().take(count).map(|name| name.to_string()).collect();
    while list.len() < count {
        list.push(gauge(rng));
    }
    rng.shuffle(&mut list);
    list
}

/// Words of exactly `length` bytes, before and behind trimming: gauges with a space between, cut off.
pub fn sized(rng: &mut Rng, count: usize, length: usize) -> Vec<String> {
    let one = |rng: &mut Rng| {
        let mut word = gauge(rng);
        while word.len() < length {
            word.push(' ');
            word += &gauge(rng);
        }
        word.truncate(length);
        if word.ends_with(' ') {
            word.pop();
            word.push('s');
        }
        word
    };
    (0..count).map(|_| one(rng)).collect()
}

/// The same gauge as another office spells it: the small vowels are drawn anew, which mostly leaves its code as it is.
pub fn respelt(rng: &mut Rng, name: &str) -> String {
    let other = |letter: char| match letter {
        // Those before which C and G are hard, and those before which they are soft.
        'a' | 'o' | 'u' => ['a', 'o', 'u'][rng.below(3)],
        'e' | 'i' => ['e', 'i'][rng.below(2)],
        _ => letter,
    };
    name.chars().map(other).collect()
}

#[cfg(test)]
mod tests {
    use super::*;

    #[test]
    fn lists_are_ascii_and_come_again() {
        let list = gauges(&mut Rng::new(1, 0), 4000);
        assert!(list.iter().all(|word| word.is_ascii() && !word.is_empty()));
        assert_eq!(list, gauges(&mut Rng::new(1, 0), 4000));
        assert_ne!(list, gauges(&mut Rng::new(2, 0), 4000));
    }

    #[test]
    fn sized_words_have_their_length_also_trimmed() {
        for length in [16, 64, 256, 1024] {
            let list = sized(&mut Rng::new(1, 0), 200, length);
            assert!(list.iter().all(|word| word.trim().len() == length));
        }
    }

    #[test]
    fn other_spellings_change_vowels_only() {
        let rng = &mut Rng::new(1, 0);
        let list = gauges(rng, 1000);
        let others: Vec<String> = list.iter().map(|name| respelt(rng, name)).collect();
        let rest = |name: &String| name.replace(['a', 'o', 'u', 'e', 'i'], "");
        assert!(list.iter().zip(&others).all(|(name, other)| rest(name) == rest(other)));
        assert!(list.iter().zip(&others).filter(|(name, other)| name != other).count() > 500);
    }

    #[test]
    fn accented_names_are_not_ascii() {
        assert!(crate::ACCENTED.iter().all(|name| !name.is_ascii()));
    }
}
