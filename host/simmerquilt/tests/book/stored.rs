//! The stored books, whose codes are the unchanged Rust's or, under edition 2, those of its copy with one test read otherwise: the library
//! makes these very bytes, reads them and prints the same.
use simmerquilt::Book;
use std::fs;
use std::path::{Path, PathBuf};

fn stored(name: &str) -> PathBuf {
    Path::new(env!("CARGO_MANIFEST_DIR")).join("../../tests/books").join(name)
}

fn text(bytes: &[u8]) -> &str {
    std::str::from_utf8(bytes).unwrap()
}

fn printed(book: &Book) -> String {
    let limit = book.limit().map_or("no limit".to_string(), |limit| format!("limit {limit}"));
    let mut lines = format!("format {}, edition {}, {limit}\n", book.format(), book.edition());
    for record in book.records() {
        let [name, primary, alternate] = [record.name, record.primary, record.alternate].map(text);
        let kind = if record.kind.is_live() { "" } else { "\tclosed" };
        lines += &format!("{}\t{name}\t{primary}\t{alternate}{kind}\n", record.station);
    }
    let closed = match book.len() - book.live() {
        0 => String::new(),
        closed => format!(", {closed} closed"),
    };
    lines + &format!("{} records{closed}\n", book.len())
}

/// Station and name of each line but the first and the last, and whether it is closed.
fn list(printed: &str) -> Vec<(u64, &str, bool)> {
    let lines: Vec<&str> = printed.lines().collect();
    lines[1..lines.len() - 1]
        .iter()
        .map(|line| {
            let fields: Vec<&str> = line.split('\t').collect();
            (fields[0].parse().unwrap(), fields[1], fields.get(4) == Some(&"closed"))
        })
        .collect()
}

/// Each with its format, its edition and its limit.
const BOOKS: [(&str, u32, u32, u64); 5] = [
    ("gauges-4", 1, 1, 4),
    ("gauges-6", 1, 1, 6),
    ("gauges-4-edition-2", 1, 2, 4),
    ("gauges-4-format-2", 2, 2, 4),
    ("gauges-4-closed-up", 2, 2, 4),
];

/// What a stored book begins with. Those of an older format or edition are not started any more, and go on from this.
const HEADER: usize = 3;

#[test]
fn the_library_makes_and_prints_the_stored_books() {
    for (name, format, edition, limit) in BOOKS {
        let lines = fs::read_to_string(stored(&format!("{name}.txt"))).unwrap();
        let bytes = fs::read(stored(&format!("{name}.book"))).unwrap();
        let mut made = Book::from_bytes(bytes[..HEADER].to_vec()).unwrap();
        assert_eq!((made.format(), made.edition(), made.limit()), (format, edition, Some(limit)));
        assert!(made.is_empty());
        assert_eq!(made == Book::new(Some(limit)).unwrap(), (format, edition) == (2, 2));
        for (station, name, _) in list(&lines) {
            made.add(station, name).unwrap();
        }
        for (station, ..) in list(&lines).iter().filter(|(.., closed)| *closed) {
            made.close(*station).unwrap();
        }
        assert!(made.len() > 200);
        assert_eq!(made.as_bytes(), bytes);
        assert_eq!(printed(&Book::from_bytes(bytes).unwrap()), lines);
    }
}

#[test]
fn the_stored_book_with_closed_stations_closes_up() {
    let mut book = Book::load(stored("gauges-4-format-2.book")).unwrap();
    let closed: Vec<_> = book.records().filter(|record| !record.kind.is_live()).map(|record| record.station).collect();
    assert_eq!((closed, book.len()), (vec![10, 268_435_455], 257));
    // A file has no room behind its book; the last station was closed, so that one below it can come.
    book.add(268_435_454, "Zwickau-Poelbitz").unwrap();
    assert_eq!(book.as_bytes(), fs::read(stored("gauges-4-closed-up.book")).unwrap());
    assert_eq!((book.len(), book.live()), (256, 256));
}

#[test]
fn the_stored_books_of_both_formats_have_the_same_records() {
    let [one, two] =
        ["gauges-4-edition-2", "gauges-4-format-2"].map(|name| Book::load(stored(&format!("{name}.book"))).unwrap());
    assert_eq!((one.format(), two.format()), (1, 2));
    let fields = |book: &Book| -> Vec<_> {
        let records = book.records();
        records
            .map(|record| (record.station, record.name.to_vec(), record.primary.to_vec(), record.alternate.to_vec()))
            .collect()
    };
    assert_eq!(fields(&one), fields(&two));
}

#[test]
fn the_stored_books_of_both_editions_differ_on_van_chi_alone() {
    let [one, two] = ["gauges-4", "gauges-4-edition-2"].map(|name| Book::load(stored(&format!("{name}.book"))).unwrap());
    let differ: Vec<_> = one.records().zip(two.records()).filter(|(one, two)| one != two).collect();
    let [(one, two)] = differ[..] else { panic!("{differ:?}") };
    assert_eq!((text(one.name), text(one.primary), text(one.alternate)), ("Van Chi", "FNX", "FNK"));
    assert_eq!((text(two.name), text(two.primary), text(two.alternate)), ("Van Chi", "FNK", "FNK"));
}
