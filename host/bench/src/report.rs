use crate::measure::{Row, Spent, ROUNDS};
use std::env::consts::{ARCH, OS};
use std::thread;

/// How many times as fast as the crate the port is wanted to be, at the least.
const ANYWHERE: f64 = 1.8;
/// On gauge names, at each limit.
const ON_GAUGES: f64 = 2.5;
/// With no limit on words of 64 bytes and more.
const ON_LONG: f64 = 3.0;

impl Row {
    fn target(&self) -> f64 {
        match (self.list.as_str(), self.limit) {
            ("gauge names", _) => ON_GAUGES,
            ("words of 64 bytes" | "words of 256 bytes" | "words of 1024 bytes", None) => ON_LONG,
            _ => ANYWHERE,
        }
    }
}

pub fn table(rows: &[Row]) -> String {
    let mut text = String::from(
        "| words | limit | crate | port | ratio | wanted | wrapper | ratio | edition 2 | to edition 1 |\n\
         |---|---|--:|--:|--:|--:|--:|--:|--:|--:|\n",
    );
    for row in rows {
        text += &format!(
            "| {} | {} | {} | {} | {:.2} | {:.1} | {} | {:.2} | {} | {:.2} |\n",
            row.list,
            limit(row),
            thousands(row.rust),
            thousands(row.port),
            row.ratio,
            row.target(),
            thousands(row.wrapper),
            row.wrapper_ratio,
            thousands(row.edition2),
            row.edition2_ratio,
        );
    }
    text
}

fn limit(row: &Row) -> String {
    shown(row.limit)
}

/// A limit, or none.
pub fn shown(limit: Option<usize>) -> String {
    limit.map_or("none".to_string(), |limit| limit.to_string())
}

/// Words a second in thousands.
fn thousands(rate: f64) -> String {
    format!("{:.0} k", rate / 1000.0)
}

/// One line: which rows fall short, if any.
pub fn targets(rows: &[Row]) -> String {
    let missed: Vec<String> = rows
        .iter()
        .filter(|row| row.ratio < row.target())
        .map(|row| format!("{}, limit {}: {:.2} of {:.1}", row.list, limit(row), row.ratio, row.target()))
        .collect();
    if missed.is_empty() {
        "Every ratio reaches what is wanted.".to_string()
    } else {
        format!("Short of what is wanted: {}.", missed.join("; "))
    }
}

/// What the port's time is spent on.
pub fn spent(spent: &Spent) -> String {
    format!(
        "A visit takes {:.1} ns over words of 64 bytes with no limit, and {:.1} ns where one word comes again and again, so that the \
processor has learnt its branches. The difference, {:.0} % of the time, is what a new name costs over a known one. It is put down \
to branches that the processor guesses wrong, above all the jump to the visited letter's rule, since the next letter of a new name \
cannot be foreseen; no counter of the processor was read. What is left is the visit itself: the jump, the \
letter's tests, the bytes written and the tally. Before the first visit, trimming, the ASCII test, the mark's scan and the call \
take {:.0} ns on a word of 1,024 bytes, most of what such a word costs under limit 4.",
        spent.visit,
        spent.learnt,
        100.0 * (1.0 - spent.learnt / spent.visit),
        spent.scans,
    )
}

pub fn page(rows: &[Row], gauges: &[String], time: &Spent, sections: &[String]) -> String {
    let cores = thread::available_parallelism().map_or(1, usize::from);
    let bytes: usize = gauges.iter().map(String::len).sum();
    format!(
        "# Benchmarks

Words a second, in thousands: the unchanged double_metaphone.rs of rphonetic 4.0.0 (crate), the proved port on lent buffers (port), \
and the port behind the Rust wrapper that returns two strings (wrapper), each with its ratio to the crate; these are of edition 1. \
Then the port on lent buffers by edition 2, which no crate has, with its ratio to the port by edition 1. All four make both codes of \
every word. They take turns over the same words in one run, on one thread; a number is the median of {ROUNDS} rounds.

The gauge names are {} lines of {:.1} bytes on average. Words of a given length are gauge names with a space between, cut off there.

{}
{}

## What the time is spent on

{}

{}
Measured on {cores} cores, {ARCH}, {OS}, by this command in host/, which writes this page:

    cargo run --offline --release -p bench
",
        gauges.len(),
        bytes as f64 / gauges.len() as f64,
        table(rows),
        targets(rows),
        spent(time),
        sections.join("\n"),
    )
}
