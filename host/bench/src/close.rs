//! Closing a station, and adding a record for which the book is closed up, beside reading the same book.
use crate::book::grown;
use crate::measure::{median, ratios};
use crate::stations::rising;
use simmerquilt::book;
use std::hint::black_box;
use std::ops::Range;
use std::time::Instant;
use words::{gauges, Rng};

/// How many records a book has, and the rounds that a number is then the median of.
pub const SIZES: [(usize, usize); 4] = [(1_000, 301), (10_000, 101), (100_000, 31), (1_000_000, 11)];

/// One in so many records is closed.
pub const ONE_IN: [usize; 2] = [2, 100];

/// Nanoseconds a record, each the median of all rounds; a ratio is that to reading.
pub struct Row {
    pub records: usize,
    pub one_in: usize,
    pub closed: usize,
    pub read: f64,
    pub close: f64,
    pub close_ratio: f64,
    pub close_up: f64,
    pub close_up_ratio: f64,
}

/// Does one thing to the book that fills a room.
type Pass<'a> = &'a dyn Fn(&mut [u8]);

pub fn measure() -> Vec<Row> {
    let rng = &mut Rng::new(5, 0);
    let names = gauges(rng, SIZES[SIZES.len() - 1].0 + 1);
    let list = rising(rng, names);
    let rows = ONE_IN.map(|one_in| SIZES.map(|(records, rounds)| measure_one(rng, &list[..=records], one_in, rounds)));
    rows.into_iter().flatten().collect()
}

/// The last of the list is the record that is added. The room ends with the book, so that it does not fit there.
fn measure_one(rng: &mut Rng, list: &[(u64, String)], one_in: usize, rounds: usize) -> Row {
    let [list @ .., (added, name)] = list else { unreachable!("a list has a last record") };
    let (records, name) = (list.len(), name.as_bytes());
    let Marked { book, live } = Marked::new(rng, list, one_in);
    let (length, closing) = (book.len(), live[live.len() / 2].0);
    let read = |room: &mut [u8]| assert_eq!(book::read(room).map(|whole| whole.records), Ok(records));
    let close = |room: &mut [u8]| assert_eq!(book::close_in(room, length, closing), Ok(()));
    let close_up = |room: &mut [u8]| assert!(black_box(book::add_in(room, length, *added, name)).is_ok());
    assert_closed(&book, &live, &close);
    assert_closed_up(&book, &live, (*added, name), &close_up);

    let [read, close, close_up] = in_turns([&read, &close, &close_up], &book, rounds);
    let a_record = |times: Vec<f64>| 1e9 * median(times) / records as f64;
    Row {
        records,
        one_in,
        closed: records - live.len(),
        close_ratio: median(ratios(&close, &read)),
        close_up_ratio: median(ratios(&close_up, &read)),
        read: a_record(read),
        close: a_record(close),
        close_up: a_record(close_up),
    }
}

/// Seconds of each pass in each round; another goes first in each. Before each pass the room gets the book again, untimed.
fn in_turns<const N: usize>(passes: [Pass; N], book: &[u8], rounds: usize) -> [Vec<f64>; N] {
    let mut room = book.to_vec();
    let mut times = [(); N].map(|_| Vec::with_capacity(rounds));
    for round in 0..rounds {
        for turn in 0..N {
            let which = (round + turn) % N;
            room.copy_from_slice(book);
            let start = Instant::now();
            passes[which](&mut room);
            times[which].push(start.elapsed().as_secs_f64());
        }
    }
    times
}

/// A book with closed records.
struct Marked {
    book: Vec<u8>,
    /// The stations of the others, and where their records lie.
    live: Vec<(u64, Range<usize>)>,
}

impl Marked {
    /// Records are closed by hand, since a close reads the book each time. The first one is, so that all others have to move; the rest
    /// is drawn, so that the processor cannot learn which.
    fn new(rng: &mut Rng, list: &[(u64, String)], one_in: usize) -> Marked {
        let mut book = grown(list).into_bytes();
        let (_, mut cursor) = book::open(&book).expect("a good book");
        let (start, mut closed, mut live) = (cursor.place, Vec::new(), Vec::new());
        while let Some((record, next)) = book::next(&book, cursor).expect("a good book") {
            if cursor.place == start || rng.once_in(one_in) {
                closed.push(cursor.place);
            } else {
                live.push((u64::from(record.station), cursor.place..next.place));
            }
            cursor = next;
        }
        // The kind is a record's first byte.
        closed.into_iter().for_each(|place| book[place] = 0);
        assert_eq!(book::read(&book).map(|whole| whole.live), Ok(live.len()));
        Marked { book, live }
    }
}

/// That the kind of the middle one of the live records is all that changes.
fn assert_closed(book: &[u8], live: &[(u64, Range<usize>)], close: Pass) {
    let (mut room, mut expected) = (book.to_vec(), book.to_vec());
    close(&mut room);
    expected[live[live.len() / 2].1.start] = 0;
    assert!(room == expected, "a close changes one byte");
}

/// That the live records and the new one are there, as they would have been written without the others, and no byte behind has changed.
fn assert_closed_up(book: &[u8], live: &[(u64, Range<usize>)], (station, name): (u64, &[u8]), close_up: Pass) {
    let (header, cursor) = book::open(book).expect("a good book");
    let mut expected = book[..cursor.place].to_vec();
    live.iter().for_each(|(_, place)| expected.extend(&book[place.clone()]));
    let end = book::read(&expected).expect("a good book").end;
    expected.extend(&book[end.length..]);
    book::append_in(&mut expected, header, end, station, name).expect("there is room");
    let mut room = book.to_vec();
    close_up(&mut room);
    assert!(room == expected, "closing up keeps the live records");
}
