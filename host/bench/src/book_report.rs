use crate::book::{Reading, Rows, Writing, LIMIT, ROUNDS, SLOW_ROUNDS};

fn reading(rows: &[Reading]) -> String {
    let mut text = String::from(
        "| records | bytes | read | plain | ratio | cursor | plain | ratio |\n|--:|--:|--:|--:|--:|--:|--:|--:|\n",
    );
    for row in rows {
        text += &format!(
            "| {} | {} | {:.1} | {:.1} | {:.2} | {:.1} | {:.1} | {:.2} |\n",
            row.records, row.bytes, row.read, row.plain_read, row.read_ratio, row.walk, row.plain_walk, row.walk_ratio,
        );
    }
    text
}

fn writing(rows: &[Writing]) -> String {
    let mut text = String::from(
        "| records | add, in all | add | append | add to append | Book | plain | ratio |\n|--:|--:|--:|--:|--:|--:|--:|--:|\n",
    );
    for row in rows {
        let none = || "-".to_string();
        text += &format!(
            "| {} | {} | {} | {:.0} | {} | {:.0} | {:.0} | {:.2} |\n",
            row.records,
            row.add.map_or_else(none, |(add, _)| format!("{:.1} ms", add * row.records as f64 / 1e6)),
            row.add.map_or_else(none, |(add, _)| format!("{add:.0}")),
            row.append,
            row.add.map_or_else(none, |(_, ratio)| format!("{ratio:.1}")),
            row.grown,
            row.plain,
            row.ratio,
        );
    }
    text
}

/// What a record costs in the longest book, as a multiple of what it costs in the shortest.
pub fn growth<T>(rows: &[T], cost: impl Fn(&T) -> Option<f64>) -> String {
    let costs: Vec<f64> = rows.iter().filter_map(cost).collect();
    let (Some(first), Some(last)) = (costs.first(), costs.last()) else { return "none".to_string() };
    format!("{:.1}", last / first)
}

pub fn section(rows: &Rows) -> String {
    let Rows { reading: read, writing: written } = rows;
    format!(
        "## The station key book

Nanoseconds a record, in new books, which carry format 2 and edition 2, without closed records, of gauge names under limit {LIMIT}, \
beside a plain reader and writer in Rust (host/plain), whose codes are those of the crate's copy that reads as edition 2 does and counts \
its visits. All take turns in one run; a number is the median of {ROUNDS} rounds, of {SLOW_ROUNDS} for adding 10,000 records. A ratio is \
that of the plain one's time to the library's.

Reading a whole book (read), and going through its records one by one (cursor):

{}
A record of the longest book takes {} times the time of one of the shortest to read, and {} times to walk; where the time grows as the \
book does, this is near 1.

Writing a book from its start, in a room that is lent, by `add`, which reads the book before each record, and by `append`, which goes \
on from the known end; by the type `Book`, which appends and grows its own room; and by the plain writer:

{}
A record costs {} times as much to add to the longest of these books as to the shortest, since each call reads what is there; to append \
it costs {} times as much.
",
        reading(read),
        growth(read, |row| Some(row.read)),
        growth(read, |row| Some(row.walk)),
        writing(written),
        growth(written, |row| row.add.map(|(add, _)| add)),
        growth(written, |row| Some(row.append)),
    )
}
