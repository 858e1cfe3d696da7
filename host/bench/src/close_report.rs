use crate::book::LIMIT;
use crate::book_report::growth;
use crate::close::{Row, ONE_IN, SIZES};

/// How many reads of a book of so many records closing it up may cost at most.
const READS: f64 = 4.0;
const AT: usize = 100_000;

fn table(rows: &[Row]) -> String {
    let mut text = String::from(
        "| records | closed | read | close | reads | add, closed up | reads |\n|--:|--:|--:|--:|--:|--:|--:|\n",
    );
    for row in rows {
        text += &format!(
            "| {} | {} | {:.1} | {:.1} | {:.2} | {:.1} | {:.2} |\n",
            row.records, row.closed, row.read, row.close, row.close_ratio, row.close_up, row.close_up_ratio,
        );
    }
    text
}

/// One line: which rows cost too much, if any.
fn targets(rows: &[Row]) -> String {
    let missed: Vec<String> = rows
        .iter()
        .filter(|row| row.records == AT && row.close_up_ratio > READS)
        .map(|row| format!("{} closed: {:.2}", row.closed, row.close_up_ratio))
        .collect();
    if missed.is_empty() {
        format!("At {AT} records an add that closes up costs at most the wanted {READS:.0} reads.")
    } else {
        format!("Over the wanted {READS:.0} reads at {AT} records: {}.", missed.join("; "))
    }
}

/// For each share of closed records, what a record of the longest book costs, as a multiple of what one of the shortest does.
fn growths(rows: &[Row]) -> String {
    let of = |one_in: usize| growth(rows, |row| (row.one_in == one_in).then_some(row.close_up));
    ONE_IN.map(|one_in| format!("{} (one in {one_in} closed)", of(one_in))).join(", ")
}

fn rounds() -> String {
    SIZES.map(|(records, rounds)| format!("{rounds} at {records} records")).join(", ")
}

pub fn section(rows: &[Row]) -> String {
    format!(
        "## Closing a station, and closing up a book

Nanoseconds for each record of the book, closed ones too, in books of gauge names under limit {LIMIT}: reading the book (read), closing a \
station in its middle (close), which reads the book and changes one byte, and adding a record to a room that ends with the book, so that \
it is closed up first. Beside them stands how many reads of the same book they cost. The first record is closed, so that all live ones \
move, and of the others one in {}, drawn at random. The room is filled with the book again before each call, untimed. All take turns in \
one run; a number is the median of so many rounds: {}.

{}
{}

A record of the longest book takes so many times the time of one of the shortest to close up: {}; to read it takes {} times. Where the \
time grows as the book does, this is near 1.
",
        ONE_IN.map(|one_in| one_in.to_string()).join(" or in "),
        rounds(),
        table(rows),
        targets(rows),
        growths(rows),
        growth(rows, |row| (row.one_in == ONE_IN[0]).then_some(row.read)),
    )
}
