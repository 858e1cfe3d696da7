use crate::join::{Row, Rows, SETTINGS, SIZES};
use crate::sqlite::NOT_AT_HAND;

/// How many times as fast as SQLite's query a join is wanted to be, from so many records a side on.
const TIMES: f64 = 5.0;
const FROM: usize = 10_000;

fn limit(limit: Option<u64>) -> String {
    limit.map_or("none".to_string(), |limit| limit.to_string())
}

fn cuts(row: &Row) -> String {
    let [first, second] = row.setting.limits.map(limit);
    format!("{first} and {second}")
}

/// Three digits that count, whatever the size.
fn seconds(seconds: f64) -> String {
    match seconds {
        1.0.. => format!("{seconds:.2}"),
        0.1.. => format!("{seconds:.3}"),
        0.01.. => format!("{seconds:.4}"),
        _ => format!("{seconds:.5}"),
    }
}

/// Nanoseconds of our join for each record of both books and each pair.
fn each(row: &Row) -> f64 {
    1e9 * row.ours / (2 * row.records + row.pairs) as f64
}

fn table(rows: &[Row]) -> String {
    let mut text = String::from(
        "| lists | cuts | records a side | pairs | SQLite index | SQLite query | ours | times as fast | ns a record and pair |\n\
         |---|---|--:|--:|--:|--:|--:|--:|--:|\n",
    );
    for row in rows {
        text += &format!(
            "| {} | {} | {} | {} | {} s | {} s | {} s | {:.1} | {:.0} |\n",
            row.setting.lists.name,
            cuts(row),
            row.records,
            row.pairs,
            seconds(row.index),
            seconds(row.query),
            seconds(row.ours),
            row.ratio,
            each(row),
        );
    }
    text
}

/// One line: which rows fall short, if any.
fn targets(rows: &[Row]) -> String {
    let missed: Vec<String> = rows
        .iter()
        .filter(|row| row.setting.wanted && row.records >= FROM && row.ratio < TIMES)
        .map(|row| format!("{}, {} records: {:.1}", row.setting.lists.name, row.records, row.ratio))
        .collect();
    if missed.is_empty() {
        format!("From {FROM} records on the first two joins are at least the wanted {TIMES:.0} times as fast as SQLite's query with its index ready.")
    } else {
        format!("Short of the wanted {TIMES:.0} times: {}.", missed.join("; "))
    }
}

/// Of each setting, what the join of the longest books costs for each record and pair, as a multiple of what that of the shortest costs.
fn growth(rows: &[Row]) -> String {
    let of_setting = |name: &str| {
        let costs: Vec<f64> = rows.iter().filter(|row| row.setting.lists.name == name).map(each).collect();
        costs.first().zip(costs.last()).map(|(first, last)| format!("{:.1} ({name})", last / first))
    };
    SETTINGS.iter().filter_map(|setting| of_setting(setting.lists.name)).collect::<Vec<_>>().join(", ")
}

fn rounds() -> String {
    SIZES.map(|(records, rounds)| format!("{rounds} at {records} records")).join(", ")
}

fn timed(Rows { version, rows }: &Rows) -> String {
    format!(
        "Two books are joined by the primary code; the second has half of the first's gauges in other spellings, and as many of its own. \
SQLite {version} joins the same stored codes in memory, called by its C interface: two tables, joined on `substr(code, 1, m)`, m the \
smaller limit, ordered by both stations, each row stepped to and stored. It has an index on that expression, made before and timed \
apart. Our join is timed whole: both books are read, the index is made in the scratch, and the pairs are written. All rooms are there \
and were written to before. Both give the same pairs and take turns in one run; a number is the median of so many rounds: {}.

The gauges are names as above, of which four bytes tell about a thousand apart: the pairs grow as the square of the records, and a \
million a side would have a thousand million of them. The places are names of two such parts, as in \"Aare at Brugg\", under cuts that \
leave most of them a key of their own, so that the pairs grow as the records do: forty a record where each place has 80 stations in a \
list. Where it has one there is hardly a pair a record to be listed, and SQLite, whose tables and index are made before its time begins, \
is about as fast as reading two books twice each and indexing one.

{}
{}

A record or pair of the longest books takes so many times the time of one of the shortest: {}. Where the time grows as records and pairs \
do, this is near 1.
",
        rounds(),
        table(rows),
        targets(rows),
        growth(rows),
    )
}

/// Without SQLite it says that nothing was timed.
pub fn section(rows: Option<&Rows>) -> String {
    let text = rows.map_or_else(|| format!("NOT TIMED, there was nothing to time the join beside: {NOT_AT_HAND}.\n"), timed);
    format!("## The join of two books\n\n{text}")
}
