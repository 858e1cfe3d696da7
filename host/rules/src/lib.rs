//! The letter rules in words, from the definition's own files (crates/rules/specs): the page docs/RULES.md, and the same lines as data for
//! the wrapper, host/simmerquilt/src/cases.rs.
//!
//! [`read`] reads the table of the definition, and fails with file and line on whatever it does not know. [`words`] says a condition, so
//! that it can be read back; [`page`] and [`data`] lay the lines out. [`visits`] goes over a word by the table, which finds the letter of
//! an example that takes its case.
pub mod data;
pub mod page;
pub mod read;
pub mod table;
pub mod visits;
pub mod words;

pub use read::{read, Fault, Source};
pub use table::{Case, Cond, Row, Spot, Table};

use std::fs;
use std::path::Path;

/// How many cases the table has.
pub const CASES: usize = 119;

/// The cases that no word takes: ways through the Rust's branches that stand in the definition as they do there.
pub const UNTAKEN: [(&str, usize); 5] = [("J", 5), ("J", 7), ("R", 1), ("S", 15), ("X", 4)];

/// A file that is made: where it lies, from the repository's root, and what it holds.
pub struct Made {
    pub path: &'static str,
    pub text: String,
}

/// Makes both files, the page and the data. An example is a row's name, a case's number and a word.
pub fn made(source: Source, examples: &[(&str, usize, &str)]) -> Result<[Made; 2], Fault> {
    let table = read(source)?;
    if table.count() != CASES {
        return Err(Fault::new(format!("{}: the table has {} cases, and not {CASES}", read::TABLE, table.count())));
    }
    let lines = words::lines(&table)?;
    let page = page::page(&table, &lines, examples)?;
    let data = data::data(&table, &lines);
    Ok([Made { path: "docs/RULES.md", text: page }, Made { path: "host/simmerquilt/src/cases.rs", text: data }])
}

/// The files of the repository at `root`.
pub fn files(root: &Path) -> impl Fn(&str) -> Result<String, Fault> + '_ {
    |path| fs::read_to_string(root.join(path)).map_err(|error| Fault::new(format!("{path}: {error}")))
}

/// Fails unless the files at `root` are those that are made.
pub fn check(root: &Path, made: &[Made]) -> Result<(), Fault> {
    for Made { path, text } in made {
        if files(root)(path)? != *text {
            let how = "`cargo run --offline -p rules` in host/ makes it anew";
            return Err(Fault::new(format!("{path} is stale: it is not what crates/rules/specs gives; {how}")));
        }
    }
    Ok(())
}

#[cfg(test)]
mod tests;
