//! Makes the stored books of tests/books and their printed forms from the names of examples/gauges.txt: gauges-4 and gauges-6 of
//! edition 1, at the limits 4 and 6, as books were made before there was an edition 2, and gauges-4-edition-2, all of format 1; then
//! gauges-4-format-2, which has two closed stations, and gauges-4-closed-up, which is that one with a record added in a room of just its
//! length. The codes are the unchanged Rust's, or those of its copy that reads as edition 2 does, and the bytes a plain writer's, so that
//! the proved library has no part in them.
//!
//! A printed book has its header in the first line, a record a line (station, tab, name, tab, primary code, tab, alternate code, and
//! behind a further tab the word closed where it is), and in the last line how many there are, and how many of them closed if any is.
//!
//!     cargo run --offline --release -p stored --bin books
use oracle::{Codes, Oracle, NOT_AT_HAND};
use plain::{Reader, Writer};
use std::fs;
use std::io;
use std::path::Path;
use std::process::exit;

/// The name, the format, the edition and the limit of each book.
const BOOKS: [(&str, u32, u32, u64); 4] =
    [("gauges-4", 1, 1, 4), ("gauges-6", 1, 1, 6), ("gauges-4-edition-2", 1, 2, 4), ("gauges-4-format-2", 2, 2, 4)];

/// What closes in books of format 2: Van Chi, and Zwickau-Poelbitz, which is the last.
const CLOSED: [u64; 2] = [10, 268_435_455];

/// What is added in the room of these, with a station that is not above the last one closed.
const REOPENED: (u64, &str) = (268_435_454, "Zwickau-Poelbitz");

/// Rising stations with gaps, a quarter of them in each width from one group to four, from the least of a width to the largest.
fn stations(count: usize) -> Vec<u64> {
    let mut stations = Vec::new();
    for groups in 1..=4 {
        let least = if groups == 1 { 0 } else { 1 << (7 * (groups - 1)) };
        let largest = (1 << (7 * groups)) - 1;
        let steps = (count - stations.len()) / (5 - groups) - 1;
        stations.extend((0..=steps).map(|step| least + (largest - least) * step as u64 / steps as u64));
    }
    stations
}

fn codes(oracle: &Oracle, name: &str, edition: u32, limit: u64) -> Codes {
    let limit = Some(limit as usize);
    if edition == 1 {
        oracle.codes(name, limit)
    } else {
        oracle.edition2(name, limit).0
    }
}

fn book(oracle: &Oracle, names: &[&str], format: u32, edition: u32, limit: u64) -> Vec<u8> {
    let mut writer = Writer::of(format, edition, Some(limit)).expect("both are known and the limit is small");
    for (station, name) in stations(names.len()).into_iter().zip(names) {
        let codes = codes(oracle, name, edition, limit);
        writer.push(station, name.as_bytes(), |_, _| (codes.primary, codes.alternate)).expect("a good record");
    }
    let mut book = writer.into_bytes();
    if format > 1 {
        for station in CLOSED {
            book = plain::close(&book, book.len() as u64, station).expect("it is live");
        }
    }
    book
}

/// The book with one more record where it had no more room.
fn closed_up(oracle: &Oracle, book: &[u8]) -> Vec<u8> {
    let (station, name) = REOPENED;
    let codes = |_: &[u8], header: plain::Header| {
        let codes = codes(oracle, name, header.edition, header.limit().expect("it has one"));
        (codes.primary, codes.alternate)
    };
    plain::add(book, book.len() as u64, station, name.as_bytes(), codes).expect("two closed records make room")
}

fn printed(book: &[u8]) -> String {
    let (header, records) = Reader::open(book).expect("a good header");
    let limit = header.limit().map_or("no limit".to_string(), |limit| format!("limit {limit}"));
    let mut lines = vec![format!("format {}, edition {}, {limit}", header.format, header.edition)];
    let mut closed = 0;
    for record in records {
        let record = record.expect("a good record");
        let [name, primary, alternate] = [record.name, record.primary, record.alternate].map(String::from_utf8_lossy);
        let kind = if record.live { "" } else { "\tclosed" };
        lines.push(format!("{}\t{name}\t{primary}\t{alternate}{kind}", record.station));
        closed += usize::from(!record.live);
    }
    let closed = if closed == 0 { String::new() } else { format!(", {closed} closed") };
    lines.push(format!("{} records{closed}", lines.len() - 1));
    lines.join("\n") + "\n"
}

fn store(name: &str, book: &[u8]) -> io::Result<()> {
    let path = Path::new(env!("CARGO_MANIFEST_DIR")).join("../../tests/books").join(name);
    fs::write(path.with_extension("txt"), printed(book))?;
    fs::write(path.with_extension("book"), book)
}

fn main() -> io::Result<()> {
    let Some(oracle) = Oracle::at_hand() else {
        eprintln!("books: {NOT_AT_HAND}");
        exit(1);
    };
    let root = Path::new(env!("CARGO_MANIFEST_DIR")).join("../..");
    let list = fs::read_to_string(root.join("examples/gauges.txt"))?;
    let names: Vec<&str> = list.lines().collect();
    for (name, format, edition, limit) in BOOKS {
        let book = book(&oracle, &names, format, edition, limit);
        store(name, &book)?;
        if format > 1 {
            store("gauges-4-closed-up", &closed_up(&oracle, &book))?;
        }
    }
    Ok(())
}
