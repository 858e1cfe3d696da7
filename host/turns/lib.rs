//! Two builds of the proved library in one program, held against each other. host/before-after links them, under names that begin with
//! `old_` and `new_`, and calls this in several ways; what one call prints, another reads. A row is a list of words and a limit, or, with
//! the word `books` before, a call and the books that it is made on.
//!
//!     turns same                compares all answers, and ends with 1 at the first word on which they differ
//!     turns time ROUNDS         times both in turns, a line for each row
//!     turns times FILE..        the table of these lines, a file for each build
//!     turns rows                the number of each row
//!     turns once LIBRARY ROW    one row's words once through a library: 0 is the old one, 1 the new one, and 2 does nothing
//!     turns counts FILE         the table of what the libraries took for each row, a line with two numbers for each
#[cfg(books)]
mod books;
mod library;
mod report;
mod rounds;
mod same;
mod time;

use library::{pass, NEW, NIL, OLD};
use report::{Group, Table};
use std::env;
use std::process::ExitCode;
use words::LIMITS;

struct Row<'a> {
    list: &'a str,
    words: &'a [String],
    limit: Option<usize>,
}

/// Every list under every limit.
fn rows(lists: &[(String, Vec<String>)]) -> Vec<Row<'_>> {
    lists.iter().flat_map(|(list, words)| LIMITS.map(|limit| Row { list, words, limit })).collect()
}

fn limit_text(limit: Option<usize>) -> String {
    limit.map_or("none".to_string(), |limit| limit.to_string())
}

/// With the mean of all rows, and the sum under each limit.
fn table(rows: &[Row]) -> Table {
    let cells = |list: &str, limit: String| vec![list.to_string(), limit];
    let under = |limit| (0..rows.len()).filter(|row| rows[*row].limit == limit).collect();
    Table {
        columns: &["words", "limit"],
        unit: "word",
        rows: rows.iter().map(|row| cells(row.list, limit_text(row.limit))).collect(),
        means: vec![Group { cells: cells("geometric mean", "all".to_string()), rows: (0..rows.len()).collect() }],
        sums: LIMITS.map(|limit| Group { cells: cells("all", limit_text(limit)), rows: under(limit) }).into(),
    }
}

/// What is to be printed, or what is wrong.
fn run(arguments: &[&str]) -> Result<String, String> {
    #[cfg(books)]
    if let ["books", arguments @ ..] = arguments {
        return books::run(arguments);
    }
    let lists = words::lists();
    let rows = rows(&lists);
    match *arguments {
        ["same"] => same::check(&rows),
        ["time", rounds] => Ok(time::lines(&rows, number(rounds)?)),
        ["times", ref files @ ..] => table(&rows).times(files),
        ["rows"] => Ok(numbers(rows.len())),
        ["once", library, row] => once(number(library)?, rows.get(number(row)?).ok_or("no such row")?),
        ["counts", file] => table(&rows).counts(file),
        _ => Err(format!("not understood: {}", arguments.join(" "))),
    }
}

fn number(text: &str) -> Result<usize, String> {
    text.parse().map_err(|_| format!("not a number: {text}"))
}

/// A line for each number below this one.
fn numbers(end: usize) -> String {
    (0..end).map(|number| format!("{number}\n")).collect()
}

/// Libraries have numbers, since looking for a name takes an instruction more or less from one to the next.
fn once(library: usize, row: &Row) -> Result<String, String> {
    let library = [OLD, NEW, NIL].get(library).copied().ok_or("no such library")?;
    pass(library, row.words, row.limit);
    Ok(String::new())
}

pub fn main() -> ExitCode {
    let arguments: Vec<String> = env::args().skip(1).collect();
    let arguments: Vec<&str> = arguments.iter().map(String::as_str).collect();
    match run(&arguments) {
        Ok(text) => {
            print!("{text}");
            ExitCode::SUCCESS
        }
        Err(text) => {
            eprintln!("before-after: {text}");
            ExitCode::FAILURE
        }
    }
}
