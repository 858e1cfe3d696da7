//! Words drawn at random: bytes of a kind, whole names and damaged ones, and words that are nearly alike.
use crate::{gauges, Rng, ACCENTED, FRAGMENTS, NAMES};

/// Blank bytes, and the control bytes beside them that are not trimmed.
const ENDS: &[u8] = b"\x09\x0a\x0b\x0c\x0d \x08\x0e\x1c\x1d\x1e\x1f";

/// A drawn short word has fewer bytes than this.
pub const SHORT: usize = 24;

/// What a drawn word is made of.
#[derive(Clone, Copy, Debug, PartialEq, Eq)]
pub enum Kind {
    Letters,
    Fragments,
    Ascii,
    AnyBytes,
    Names,
    /// Those on which the editions differ, and those that are nearly so.
    Van,
    Longest,
}

/// A word of this kind and length; a name has its own length.
pub fn word(rng: &mut Rng, kind: Kind, length: usize) -> Vec<u8> {
    let mut word = match kind {
        Kind::Letters => (0..length).map(|_| letter(rng)).collect(),
        Kind::Fragments => fragments(rng, length),
        Kind::Ascii => (0..length).map(|_| rng.byte() & 127).collect(),
        Kind::AnyBytes => any_bytes(rng, length),
        Kind::Names => damaged(rng),
        Kind::Van => return van(rng, length),
        Kind::Longest => return (0..length).map(|at| if at == 0 { b'K' } else { b"ZX"[at % 2] }).collect(),
    };
    if rng.once_in(5) {
        blank_ends(rng, &mut word);
    }
    word
}

/// Short words of every kind: one in five is a line of a gauge list, two are made of fragments.
pub fn mixed(rng: &mut Rng, count: usize) -> Vec<Vec<u8>> {
    let mut words: Vec<Vec<u8>> = gauges(rng, count / 5).into_iter().map(String::into_bytes).collect();
    while words.len() < count {
        let kind = match rng.below(8) {
            0 => Kind::Letters,
            1 => Kind::Ascii,
            2 => Kind::Names,
            3 => Kind::Van,
            _ if rng.once_in(32) => Kind::AnyBytes,
            _ => Kind::Fragments,
        };
        let length = rng.below(SHORT);
        words.push(word(rng, kind, length));
    }
    words
}

fn letter(rng: &mut Rng) -> u8 {
    match rng.below(54) {
        at @ 0..=25 => b'A' + at as u8,
        at @ 26..=51 => b'a' + (at - 26) as u8,
        _ => b' ',
    }
}

fn fragments(rng: &mut Rng, length: usize) -> Vec<u8> {
    let mut word = Vec::with_capacity(length + 8);
    let small = rng.once_in(2);
    while word.len() < length {
        let at = word.len();
        word.extend_from_slice(rng.pick(FRAGMENTS).as_bytes());
        if small && !rng.once_in(4) {
            word[at..].make_ascii_lowercase();
        }
    }
    word.truncate(length);
    word
}

/// All bytes alike, or one byte that is not ASCII in a word that else is.
fn any_bytes(rng: &mut Rng, length: usize) -> Vec<u8> {
    if length == 0 || rng.once_in(3) {
        return (0..length).map(|_| rng.byte()).collect();
    }
    let mut word = fragments(rng, length);
    let at = rng.below(length);
    word[at] = 128 | rng.byte();
    word
}

/// A name as it stands, as Latin-1, or with a few bytes lost, doubled or overwritten.
fn damaged(rng: &mut Rng) -> Vec<u8> {
    let name = if rng.once_in(2) { rng.pick(ACCENTED) } else { rng.pick(NAMES) };
    let mut word = if rng.once_in(3) { name.chars().map(|c| c as u32 as u8).collect() } else { name.as_bytes().to_vec() };
    for _ in 0..rng.below(4) {
        if word.is_empty() {
            break;
        }
        let at = rng.below(word.len());
        match rng.below(4) {
            0 => word[at] = rng.byte(),
            1 => word.insert(at, word[at]),
            2 => word.truncate(at),
            _ => {
                word.remove(at);
            }
        }
    }
    word
}

/// Begins with VAN or VON and a space, in any case and behind blanks now and then, and has a CH behind it; now and then a byte of this is
/// another.
fn van(rng: &mut Rng, length: usize) -> Vec<u8> {
    let mut word = rng.pick(&["VAN ", "VON "]).as_bytes().to_vec();
    let behind = length.saturating_sub(6);
    let before = rng.below(behind + 1).min(rng.below(8));
    word.extend(fragments(rng, before));
    word.extend(b"CH");
    word.extend(fragments(rng, behind - before));
    for byte in &mut word {
        *byte ^= 32 * u8::from(byte.is_ascii_alphabetic() && rng.once_in(2));
    }
    if rng.once_in(6) {
        let at = rng.below(6);
        word[at] = rng.byte();
    }
    if rng.once_in(6) {
        word.splice(..0, [b' ', b'\t', 0x1c][..1 + rng.below(3)].iter().copied());
    }
    word.truncate(length);
    word
}

/// Puts blank bytes, or bytes that are nearly blank, over a few at either end.
fn blank_ends(rng: &mut Rng, word: &mut [u8]) {
    let (before, behind) = (rng.below(4), rng.below(4));
    let mut end = || ENDS[rng.below(ENDS.len())];
    word.iter_mut().take(before).for_each(|byte| *byte = end());
    word.iter_mut().rev().take(behind).for_each(|byte| *byte = end());
}

/// A word that may well have the same codes as another: other case, other vowels, blank ends, a byte lost or doubled.
pub fn alike(rng: &mut Rng, word: &[u8]) -> Vec<u8> {
    let mut other = Vec::with_capacity(word.len() + 8);
    for &byte in word {
        let byte = if b"AEIOUaeiou".contains(&byte) && rng.once_in(3) { b"aeiou"[rng.below(5)] } else { byte };
        let times = match rng.below(40) {
            0 => 0,
            1 => 2,
            _ => 1,
        };
        let byte = if rng.once_in(4) { byte ^ (32 * u8::from(byte.is_ascii_alphabetic())) } else { byte };
        for _ in 0..times {
            other.push(byte);
        }
    }
    if rng.once_in(4) {
        other.push(b' ');
    }
    other
}
