//! Lists of records and bytes that look like books, the same from the same seed.
use std::collections::BTreeSet;
use words::{Rng, FRAGMENTS};

/// What a book is made of.
#[derive(Clone, Debug)]
pub struct List {
    pub format: u32,
    pub edition: u32,
    pub limit: Option<u64>,
    pub records: Vec<(u64, Vec<u8>)>,
    /// The stations that close when all are in the book; none in format 1.
    pub closed: Vec<u64>,
}

/// The first number that does not fit into so many groups.
fn end_of(groups: u32) -> u64 {
    1 << (7 * groups)
}

/// A number of one to four groups, each as often.
pub fn number(rng: &mut Rng) -> u64 {
    let groups = 1 + rng.below(4) as u32;
    match rng.below(6) {
        0 => end_of(groups) - 1,
        1 if groups > 1 => end_of(groups - 1),
        _ => rng.number() % end_of(groups),
    }
}

/// No limit, those of the cuts 1, 2, 5 and 7, or that of any cut.
pub fn limit(rng: &mut Rng) -> Option<u64> {
    match rng.below(8) {
        at @ 0..=4 => [None, Some(0), Some(1), Some(4), Some(6)][at],
        _ => number(rng).checked_sub(1),
    }
}

/// A name of any length, mostly short, mostly of what the letter rules ask for.
pub fn name(rng: &mut Rng) -> Vec<u8> {
    let length = match rng.below(40) {
        0 => 1024 - rng.below(3),
        1 => rng.below(1025),
        2..=9 => rng.below(150),
        _ => rng.below(16),
    };
    text(rng, length)
}

/// A name that keeps a book short.
pub fn short_name(rng: &mut Rng) -> Vec<u8> {
    let length = rng.below(9);
    text(rng, length)
}

/// Either format.
pub fn format(rng: &mut Rng) -> u32 {
    plain::FORMATS[rng.below(plain::FORMATS.len())]
}

/// Either edition.
pub fn edition(rng: &mut Rng) -> u32 {
    plain::EDITIONS[rng.below(plain::EDITIONS.len())]
}

/// Now and then it begins so that the editions differ on it.
fn text(rng: &mut Rng, length: usize) -> Vec<u8> {
    if rng.once_in(5) {
        return (0..length).map(|_| rng.byte() & 127).collect();
    }
    let mut name = String::new();
    if rng.once_in(4) {
        name += rng.pick(&["Van Ch", "von ch", "VON CH", "Van"]);
    }
    while name.len() < length {
        name += rng.pick(FRAGMENTS);
    }
    name.truncate(length);
    name.into_bytes()
}

/// A list of so many records, whose stations have every width. In format 2 none are closed, some, or all.
pub fn list(rng: &mut Rng, count: usize, name: impl Fn(&mut Rng) -> Vec<u8>) -> List {
    let format = format(rng);
    list_in(format, rng, count, name)
}

/// The same in a format.
pub fn list_in(format: u32, rng: &mut Rng, count: usize, name: impl Fn(&mut Rng) -> Vec<u8>) -> List {
    let mut stations = BTreeSet::new();
    while stations.len() < count {
        stations.insert(number(rng));
    }
    let open_of_four = if format == 1 { 4 } else { rng.below(5) };
    let closed = stations.iter().copied().filter(|_| rng.below(4) >= open_of_four).collect();
    List {
        format,
        edition: edition(rng),
        limit: limit(rng),
        records: stations.into_iter().map(|station| (station, name(rng))).collect(),
        closed,
    }
}

/// A number in a good form, or with a group of 0 behind it, or with its end cut off, or with too many groups.
fn any_number(rng: &mut Rng, value: u64) -> Vec<u8> {
    let mut bytes = Vec::new();
    plain::push_number(&mut bytes, value);
    let last = bytes.len() - 1;
    match rng.below(60) {
        0 => {
            bytes[last] |= 128;
            bytes.push(0);
        }
        1 => bytes[last] |= 128,
        2 => bytes = (0..4 + rng.below(3)).map(|_| rng.byte() | 128).collect(),
        _ => {}
    }
    bytes
}

/// A text behind its length, which now and then is not its length; now and then it has a high byte.
fn any_text(rng: &mut Rng, book: &mut Vec<u8>) {
    let mut text: Vec<u8> = (0..rng.below(6)).map(|_| rng.byte() & 127).collect();
    if rng.once_in(12) {
        text.push(rng.byte());
    }
    let length = match rng.below(30) {
        0 => number(rng),
        1 => 1023 + rng.below(3) as u64,
        2 => text.len() as u64 + 1,
        _ => text.len() as u64,
    };
    book.extend(any_number(rng, length));
    book.extend(text);
}

/// Bytes laid out as a book is, with faults in any field.
pub fn shaped(rng: &mut Rng) -> Vec<u8> {
    let mut book = Vec::new();
    let format = format(rng);
    for known in [format, edition(rng)] {
        let known = if rng.once_in(40) { number(rng) } else { known.into() };
        book.extend(any_number(rng, known));
    }
    let cut = number(rng);
    book.extend(any_number(rng, cut));
    let mut station = 0;
    for _ in 0..rng.below(6) {
        if format > 1 {
            let kind = if rng.once_in(20) { number(rng) } else { rng.below(2) as u64 };
            book.extend(any_number(rng, kind));
        }
        station = if rng.once_in(12) { number(rng) } else { station + rng.below(300) as u64 };
        book.extend(any_number(rng, station));
        for _ in 0..3 {
            any_text(rng, &mut book);
        }
    }
    if rng.once_in(4) {
        book.truncate(rng.below(book.len() + 1));
    }
    book
}

/// Any bytes, most of them small, so that numbers are short and lengths are met.
pub fn bytes(rng: &mut Rng) -> Vec<u8> {
    let mut book = vec![format(rng) as u8, edition(rng) as u8];
    let length = rng.below(40);
    book.extend((0..length).map(|_| match rng.below(4) {
        0 => rng.byte(),
        _ => rng.byte() & 3,
    }));
    if rng.once_in(10) {
        book.remove(0);
    }
    book
}
