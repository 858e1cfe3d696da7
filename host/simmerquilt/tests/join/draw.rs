//! Books whose keys meet often, the same from the same seed.
use plain::{Writer, EDITIONS, FORMATS};
use simmerquilt::book::STATION_END;
use simmerquilt::{Book, DoubleMetaphone, Edition};
use words::{gauges, Rng, FRAGMENTS};

pub const LIMITS: [Option<u64>; 6] = [Some(0), Some(1), Some(3), Some(4), Some(6), None];

/// Every limit of the first book with every one of the second.
pub fn limits() -> impl Iterator<Item = (Option<u64>, Option<u64>)> {
    LIMITS.into_iter().flat_map(|first| LIMITS.map(|second| (first, second)))
}

/// Either edition.
pub fn edition(rng: &mut Rng) -> u32 {
    EDITIONS[rng.below(EDITIONS.len())]
}

/// None, one, a few, and now and then some hundred.
pub fn size(rng: &mut Rng) -> usize {
    match rng.below(12) {
        0 => 0,
        1 => 1,
        2 => 100 + rng.below(200),
        3..=5 => rng.below(60),
        _ => 2 + rng.below(8),
    }
}

/// Rising stations with gaps, close to each other or far apart, so that the last is still a station.
fn stations(rng: &mut Rng, count: usize) -> Vec<u64> {
    let gap = [1, 3, 300, 200_000][rng.below(4)].min(STATION_END as usize / (count + 1));
    let mut station = rng.below(gap) as u64;
    let mut next = || {
        let this = station;
        station += 1 + rng.below(gap) as u64;
        this
    };
    (0..count).map(|_| next()).collect()
}

/// Names that meet under one edition and not under the other.
const VAN: [&str; 4] = ["Van Chi", "VON CHI", "Van Key", "Von Shea"];

/// A pool of names that both books are drawn from: gauges, and what the letter rules ask for.
pub fn pool(rng: &mut Rng, count: usize) -> Vec<String> {
    let mut pool = gauges(rng, 1000);
    pool.truncate(count / 2);
    while pool.len() < count {
        let fragments = rng.below(6);
        pool.push(if rng.once_in(4) {
            rng.pick(&VAN).to_string()
        } else {
            (0..fragments).map(|_| rng.pick(FRAGMENTS)).collect()
        });
    }
    pool
}

/// So many records with names of the pool.
pub fn named(rng: &mut Rng, pool: &[String], count: usize) -> Vec<(u64, String)> {
    stations(rng, count).into_iter().map(|station| (station, pool[rng.below(pool.len())].clone())).collect()
}

/// A new book of such records under a limit, by the library.
pub fn book(limit: Option<u64>, records: &[(u64, String)]) -> Book {
    book_in(plain::NEW_EDITION, limit, records)
}

/// The same under an edition.
pub fn book_in(edition: u32, limit: Option<u64>, records: &[(u64, String)]) -> Book {
    book_of(plain::NEW_FORMAT, edition, limit, records)
}

/// The same in a format and under an edition, from a header that the plain writer makes.
pub fn book_of(format: u32, edition: u32, limit: Option<u64>, records: &[(u64, String)]) -> Book {
    let mut book = Book::from_bytes(Writer::of(format, edition, limit).unwrap().into_bytes()).unwrap();
    for (station, name) in records {
        book.add(*station, name).unwrap();
    }
    book
}

/// Either format.
pub fn format(rng: &mut Rng) -> u32 {
    FORMATS[rng.below(FORMATS.len())]
}

/// A book of format 2 with none, some or all of its stations closed.
pub fn with_closed(rng: &mut Rng, mut book: Book) -> Book {
    let open_of_four = rng.below(5);
    let stations: Vec<u32> = book.records().map(|record| record.station).collect();
    for station in stations {
        if rng.below(4) >= open_of_four {
            book.close(station.into()).unwrap();
        }
    }
    book
}

/// A code as no encoder makes it, and longer than a limit allows: of few letters, so that many are alike or begin alike, of any bytes,
/// or long.
fn any_code(rng: &mut Rng) -> Vec<u8> {
    match rng.below(20) {
        0 => (0..rng.below(9)).map(|_| rng.byte()).collect(),
        1 => vec![b"A\0\xff"[rng.below(3)]; rng.below(400)],
        2..=4 => (0..rng.below(7)).map(|_| [0, 255][rng.below(2)]).collect(),
        _ => (0..rng.below(8)).map(|_| b"AB"[rng.below(2)]).collect(),
    }
}

/// A book of either format and of so many records whose codes are wrong for their names; in format 2 some may be closed.
pub fn coded(rng: &mut Rng, edition: u32, limit: Option<u64>, count: usize) -> Vec<u8> {
    let format = format(rng);
    let mut writer = Writer::of(format, edition, limit).unwrap();
    for station in stations(rng, count) {
        writer.push(station, b"Weser", |_, _| (any_code(rng), any_code(rng))).unwrap();
    }
    let book = Book::from_bytes(writer.into_bytes()).unwrap();
    if format == 1 { book } else { with_closed(rng, book) }.into_bytes()
}

/// Both codes of a name that is encoded afresh by an edition.
pub fn keys(edition: u32, name: &str, limit: Option<u64>) -> [String; 2] {
    let encoder = DoubleMetaphone::new(limit.map(|limit| limit as usize));
    let result = encoder.in_edition(Edition::try_from(u64::from(edition)).unwrap()).double_metaphone(name).unwrap();
    [result.primary().to_string(), result.alternate().to_string()]
}
