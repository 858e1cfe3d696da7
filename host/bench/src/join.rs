//! The join of two books beside SQLite, which joins the same codes in memory.
use crate::measure::median;
use crate::sqlite::Database;
use crate::stations::{List, Lists, FEW_PAIRS, GAUGES, MANY_STATIONS};
use simmerquilt::join::{count_in, join_in, scratch_words};
use simmerquilt::{Book, Choice, Pair};
use std::time::Instant;

/// How many records a book has, and the rounds that a number is then the median of.
pub const SIZES: [(usize, usize); 4] = [(1_000, 51), (10_000, 21), (100_000, 5), (1_000_000, 3)];

/// What two books are made of.
pub struct Setting {
    pub lists: Lists,
    pub limits: [Option<u64>; 2],
    sizes: &'static [(usize, usize)],
    /// Whether the wanted speed is asked of it.
    pub wanted: bool,
}

/// The cuts of the offices that the join is for, where a million records are left out: four bytes tell about a thousand keys apart, so
/// that there would be a thousand million pairs. Then lists with about forty pairs a record at every size, as four bytes leave them in
/// lists of forty thousand; and lists in which nearly each gauge has a key of its own, which are told and not asked anything.
pub const SETTINGS: [Setting; 3] = [
    Setting { lists: GAUGES, limits: [Some(4), Some(6)], sizes: SIZES.split_at(3).0, wanted: true },
    Setting { lists: MANY_STATIONS, limits: [Some(12), None], sizes: &SIZES, wanted: true },
    Setting { lists: FEW_PAIRS, limits: [Some(12), None], sizes: &SIZES, wanted: false },
];

impl Setting {
    /// The smaller limit.
    fn least(&self) -> u64 {
        self.limits.into_iter().flatten().min().expect("one has a limit")
    }
}

/// Seconds, each the median of all rounds.
pub struct Row {
    pub setting: &'static Setting,
    pub records: usize,
    pub pairs: usize,
    /// SQLite's making of the index.
    pub index: f64,
    /// SQLite's query where the index is there.
    pub query: f64,
    /// Our join, whole.
    pub ours: f64,
    /// The query's time to that of our join.
    pub ratio: f64,
}

pub struct Rows {
    /// Of SQLite.
    pub version: String,
    pub rows: Vec<Row>,
}

/// None where there is no SQLite.
pub fn measure() -> Option<Rows> {
    let version = Database::at_hand()?.version();
    let mut rows = Vec::new();
    for setting in &SETTINGS {
        for (records, rounds) in setting.sizes {
            rows.push(measure_one(setting, *records, *rounds)?);
        }
    }
    Some(Rows { version, rows })
}

/// A new book of a list.
fn book(limit: Option<u64>, list: &List) -> Book {
    let mut book = Book::new(limit).expect("a small limit");
    for (station, name) in list {
        book.add(*station, name).expect("a good record");
    }
    book
}

fn measure_one(setting: &'static Setting, records: usize, rounds: usize) -> Option<Row> {
    let lists = setting.lists.two(records);
    let [first, second] = [0, 1].map(|which| book(setting.limits[which], &lists[which]));
    let sqlite = Sqlite::new(&first, &second, setting.least())?;
    let index = median((0..rounds).map(|_| seconds(|| sqlite.index(), || sqlite.forget())).collect());
    sqlite.index();
    let (mut ours, mut theirs) = (Ours::new(&first, &second), Vec::new());
    // Untimed, so that each room is there and was written to; and times of different pairs could not be compared.
    ours.join();
    sqlite.query(&mut theirs);
    assert!(ours.room == theirs, "both give the same pairs");
    let [query, ours] = in_turns(rounds, &mut || sqlite.query(&mut theirs), &mut || ours.join());
    Some(Row {
        setting,
        records,
        pairs: theirs.len(),
        index,
        ratio: median(query.iter().zip(&ours).map(|(query, ours)| query / ours).collect()),
        query: median(query),
        ours: median(ours),
    })
}

/// How long the first takes; the second is done behind it.
fn seconds(timed: impl FnOnce(), then: impl FnOnce()) -> f64 {
    let start = Instant::now();
    timed();
    let seconds = start.elapsed().as_secs_f64();
    then();
    seconds
}

/// Seconds of both in each round; the other goes first in each.
fn in_turns(rounds: usize, one: &mut dyn FnMut(), other: &mut dyn FnMut()) -> [Vec<f64>; 2] {
    let mut times = [Vec::new(), Vec::new()];
    for round in 0..rounds {
        for which in [round % 2, 1 - round % 2] {
            let pass: &mut dyn FnMut() = if which == 0 { one } else { other };
            times[which].push(seconds(pass, || ()));
        }
    }
    times
}

/// Two books with the scratch and the room that their join needs.
struct Ours<'a> {
    first: &'a [u8],
    second: &'a [u8],
    scratch: Vec<usize>,
    room: Vec<Pair>,
}

impl<'a> Ours<'a> {
    fn new(first: &'a Book, second: &'a Book) -> Self {
        let mut scratch = vec![0; scratch_words(first.len(), second.len())];
        let (first, second) = (first.as_bytes(), second.as_bytes());
        let pairs = count_in(first, second, Choice::Primary, &mut scratch, u64::MAX).expect("good books");
        Ours { first, second, scratch, room: vec![Pair::default(); pairs as usize] }
    }

    /// Reads both books, makes the index in the scratch and writes the pairs.
    fn join(&mut self) {
        let pairs = join_in(self.first, self.second, Choice::Primary, &mut self.scratch, &mut self.room);
        assert_eq!(pairs, Ok(self.room.len()));
    }
}

/// Two tables of the books' stations and primary codes, and what is asked of them.
struct Sqlite {
    database: Database,
    index: String,
    query: String,
}

impl Sqlite {
    fn new(first: &Book, second: &Book, least: u64) -> Option<Self> {
        let database = Database::at_hand()?;
        for (table, book) in [("first", first), ("second", second)] {
            database.run(&format!("CREATE TABLE {table} (station INTEGER PRIMARY KEY, code BLOB NOT NULL)"));
            database.run("BEGIN");
            let rows = book.records().map(|record| (record.station, record.primary));
            database.fill(&format!("INSERT INTO {table} VALUES (?, ?)"), rows);
            database.run("COMMIT");
        }
        // Rows of one key lie in the index by station, so that SQLite goes through both tables in order and sorts nothing.
        let index = format!("CREATE INDEX second_key ON second (substr(code, 1, {least}))");
        let query = format!(
            "SELECT first.station, second.station FROM first \
             JOIN second ON substr(second.code, 1, {least}) = substr(first.code, 1, {least}) \
             ORDER BY first.station, second.station"
        );
        Some(Sqlite { database, index, query })
    }

    fn index(&self) {
        self.database.run(&self.index);
    }

    fn forget(&self) {
        self.database.run("DROP INDEX second_key");
    }

    fn query(&self, pairs: &mut Vec<Pair>) {
        self.database.pairs(&self.query, pairs);
    }
}
