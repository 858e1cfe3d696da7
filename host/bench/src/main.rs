//! Times the proved port beside the unchanged Rust, in turns over the same words, the listing beside the encoder, the station key book
//! beside a plain reader and writer, closing up a book beside reading it, and the join beside SQLite; prints the tables and writes
//! docs/BENCHMARKS.md. With the word `close` or `join` it times closing up or the join alone and writes nothing.
mod book;
mod book_report;
mod close;
mod close_report;
mod join;
mod join_report;
mod listing;
mod measure;
mod report;
mod sqlite;
mod stations;

use measure::{measure, spent, Row};
use oracle::{Oracle, NOT_AT_HAND};
use std::env;
use std::fs;
use std::io;
use std::path::Path;
use words::{lists, LIMITS};

fn closing() -> String {
    close_report::section(&close::measure())
}

fn joins() -> String {
    join_report::section(join::measure().as_ref())
}

fn main() -> io::Result<()> {
    for (word, section) in [("close", closing as fn() -> String), ("join", joins)] {
        if env::args().skip(1).eq([word]) {
            println!("{}", section());
            return Ok(());
        }
    }
    let Some(oracle) = Oracle::at_hand() else {
        println!("bench: NOT RUN, there is nothing to time the port beside: {NOT_AT_HAND}");
        return Ok(());
    };
    let lists = lists();
    let mut rows: Vec<Row> = Vec::new();
    for (list, words) in &lists {
        for limit in LIMITS {
            rows.push(measure(&oracle, list, words, limit));
        }
    }
    let (gauges, middling, long) = (&lists[0].1, &lists[2].1, &lists[4].1);
    let spent = spent(middling, long);
    println!("{}\n{}\n\n{}\n", report::table(&rows), report::targets(&rows), report::spent(&spent));
    let told = |section: String| {
        println!("{section}");
        section
    };
    let sections = [
        told(listing::section(&lists, &LIMITS)),
        told(book_report::section(&book::measure(&oracle))),
        told(closing()),
        told(joins()),
    ];
    let page = Path::new(env!("CARGO_MANIFEST_DIR")).join("../../docs/BENCHMARKS.md");
    fs::write(page, report::page(&rows, gauges, &spent, &sections))
}
