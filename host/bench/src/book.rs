//! The station key book: reading and walking beside a plain reader, adding and appending beside a plain writer.
use crate::measure::{median, ratios};
use oracle::Oracle;
use plain::{Reader, Writer};
use simmerquilt::book::{self, Whole};
use simmerquilt::Book;
use std::hint::black_box;
use std::time::Instant;
use words::{gauges, Rng};

/// The limit of all books here.
pub const LIMIT: usize = 4;

/// Rounds a number is the median of, but where adding takes too long.
pub const ROUNDS: usize = 51;
pub const SLOW_ROUNDS: usize = 3;

/// How many records the books have.
const SIZES: [usize; 4] = [100, 1_000, 10_000, 100_000];

/// From this many records on the book is not also made by adding: that takes the square of the time.
const TOO_MANY: usize = 100_000;

/// A round goes over short books again and again until it has seen as many records.
const RECORDS_A_ROUND: usize = 20_000;

/// Does one thing to a whole book.
type Pass<'a> = &'a dyn Fn();

/// Nanoseconds a record of reading, each the median of all rounds; a ratio is that of the plain reader's time to the library's.
pub struct Reading {
    pub records: usize,
    pub bytes: usize,
    pub read: f64,
    pub plain_read: f64,
    pub read_ratio: f64,
    pub walk: f64,
    pub plain_walk: f64,
    pub walk_ratio: f64,
}

/// Nanoseconds a record of writing a book from its start.
pub struct Writing {
    pub records: usize,
    /// With its ratio to appending; none where it takes too long.
    pub add: Option<(f64, f64)>,
    pub append: f64,
    /// By the type that grows its own room.
    pub grown: f64,
    pub plain: f64,
    /// The plain writer's time to that of appending.
    pub ratio: f64,
}

pub struct Rows {
    pub reading: Vec<Reading>,
    pub writing: Vec<Writing>,
}

/// Gauge names under rising stations.
type List = [(u64, String)];

fn list() -> Vec<(u64, String)> {
    let rng = &mut Rng::new(2, 0);
    let names = gauges(rng, SIZES[SIZES.len() - 1]);
    let mut station = 0;
    let mut next = || {
        station += 1 + rng.below(2000) as u64;
        station
    };
    names.into_iter().map(|name| (next(), name)).collect()
}

pub fn measure(oracle: &Oracle) -> Rows {
    let list = list();
    let lists = SIZES.map(|size| &list[..size]);
    Rows { reading: lists.map(reading).into(), writing: lists.map(|list| writing(oracle, list)).into() }
}

/// Seconds of each pass in each round; another goes first in each.
fn in_turns<const N: usize>(passes: [Pass; N], rounds: usize) -> [Vec<f64>; N] {
    let mut times = [(); N].map(|_| Vec::with_capacity(rounds));
    for round in 0..rounds {
        for turn in 0..N {
            let which = (round + turn) % N;
            let start = Instant::now();
            passes[which]();
            times[which].push(start.elapsed().as_secs_f64());
        }
    }
    times
}

/// How often a round goes over a list of this length.
fn repeats(records: usize) -> usize {
    (RECORDS_A_ROUND / records).max(1)
}

/// Nanoseconds a record.
fn a_record(times: Vec<f64>, records: usize) -> f64 {
    1e9 * median(times) / (records * repeats(records)) as f64
}

fn reading(list: &List) -> Reading {
    let records = list.len();
    let bytes = grown(list).into_bytes();
    let often = |pass: &dyn Fn(&[u8]) -> usize| {
        for _ in 0..repeats(records) {
            assert_eq!(pass(black_box(&bytes)), records);
        }
    };
    let passes: [Pass; 4] = [&|| often(&read), &|| often(&plain_read), &|| often(&walk), &|| often(&plain_walk)];
    let [read, plain_read, walk, plain_walk] = in_turns(passes, ROUNDS);
    Reading {
        records,
        bytes: bytes.len(),
        read_ratio: median(ratios(&plain_read, &read)),
        walk_ratio: median(ratios(&plain_walk, &walk)),
        read: a_record(read, records),
        plain_read: a_record(plain_read, records),
        walk: a_record(walk, records),
        plain_walk: a_record(plain_walk, records),
    }
}

fn read(book: &[u8]) -> usize {
    book::read(book).expect("a good book").records
}

fn plain_read(book: &[u8]) -> usize {
    let (_, mut records) = Reader::open(book).expect("a good book");
    records.try_fold(0, |count, record| record.map(|_| count + 1)).expect("a good book")
}

fn walk(book: &[u8]) -> usize {
    let (_, mut cursor) = book::open(book).expect("a good book");
    let mut count = 0;
    while let Some((record, next)) = book::next(book, cursor).expect("a good book") {
        black_box(record);
        cursor = next;
        count += 1;
    }
    count
}

fn plain_walk(book: &[u8]) -> usize {
    let (_, records) = Reader::open(book).expect("a good book");
    let mut count = 0;
    for record in records {
        black_box(record.expect("a good book"));
        count += 1;
    }
    count
}

fn writing(oracle: &Oracle, list: &List) -> Writing {
    let records = list.len();
    let expected = written(oracle, list);
    let room = expected.len();
    // Times of different books could not be compared.
    assert!(appended(list, room) == expected && grown(list).as_bytes() == expected);
    let often = |pass: &dyn Fn() -> Vec<u8>| {
        for _ in 0..repeats(records) {
            assert_eq!(black_box(pass()).len(), room);
        }
    };
    let passes: [Pass; 3] =
        [&|| often(&|| appended(list, room)), &|| often(&|| grown(list).into_bytes()), &|| often(&|| written(oracle, list))];
    let [append, grown, plain] = in_turns(passes, ROUNDS);
    Writing {
        records,
        add: (records < TOO_MANY).then(|| adding(list, &expected)),
        ratio: median(ratios(&plain, &append)),
        append: a_record(append, records),
        grown: a_record(grown, records),
        plain: a_record(plain, records),
    }
}

/// Nanoseconds a record of adding, and the ratio of that to appending in the same rounds.
fn adding(list: &List, expected: &[u8]) -> (f64, f64) {
    let room = expected.len();
    assert_eq!(added(list, room), expected);
    let one = |pass: &dyn Fn() -> Vec<u8>| assert_eq!(black_box(pass()).len(), room);
    let rounds = if list.len() > 1_000 { SLOW_ROUNDS } else { ROUNDS };
    let [add, append] = in_turns([&|| one(&|| added(list, room)), &|| one(&|| appended(list, room))], rounds);
    let ratio = median(ratios(&add, &append));
    (1e9 * median(add) / list.len() as f64, ratio)
}

/// One by one; each call reads the book again.
fn added(list: &List, room: usize) -> Vec<u8> {
    let mut room = vec![0; room];
    let mut length = book::start_in(&mut room, Some(LIMIT as u64)).expect("there is room");
    for (station, name) in list {
        length = book::add_in(&mut room, length, *station, name.as_bytes()).expect("there is room");
    }
    room
}

/// One by one, each from the known end.
fn appended(list: &List, room: usize) -> Vec<u8> {
    let mut room = vec![0; room];
    let length = book::start_in(&mut room, Some(LIMIT as u64)).expect("there is room");
    let Whole { header, mut end, .. } = book::read(&room[..length]).expect("a good book");
    for (station, name) in list {
        end = book::append_in(&mut room, header, end, *station, name.as_bytes()).expect("there is room");
    }
    room
}

pub fn grown(list: &List) -> Book {
    let mut book = Book::new(Some(LIMIT as u64)).expect("a small limit");
    for (station, name) in list {
        book.add(*station, name).expect("a good record");
    }
    book
}

/// By the plain writer, with the codes of the Rust's copy that reads as edition 2 does, since a new book carries that one.
fn written(oracle: &Oracle, list: &List) -> Vec<u8> {
    let mut writer = Writer::new(Some(LIMIT as u64)).expect("a small limit");
    for (station, name) in list {
        let codes = |_: &[u8], _| {
            let (codes, _) = oracle.edition2(name, Some(LIMIT));
            (codes.primary, codes.alternate)
        };
        writer.push(*station, name.as_bytes(), codes).expect("a good record");
    }
    writer.into_bytes()
}
