//! What both libraries do with books. Each makes its own; they are compared in books of every format that both take, which have the same
//! bytes, and, where they start books of different formats, each in its own.
mod case;
mod library;
mod same;
// The benchmark's lists: it is no library, and only `words` is one that is linked here.
#[path = "../bench/src/stations.rs"]
mod stations;
mod time;
mod work;

use crate::report::{Group, Table};
use crate::{number, numbers};
use case::{cases, counted, formats, formats_text, Call, Case, CALLS};
use std::hint::black_box;
use work::{Work, LIBRARIES};

/// What is to be printed, or what is wrong; see `crate::run`. Only on the shortest books is counted, and only these are compared by
/// themselves; `time` compares all.
pub fn run(arguments: &[&str]) -> Result<String, String> {
    match *arguments {
        ["same"] => same(),
        ["time", rounds] => time::lines(number(rounds)?),
        ["times", ref files @ ..] => table(&cases()).times(files),
        ["rows"] => Ok(numbers(rows(&counted()).len())),
        ["once", library, row] => once(number(library)?, number(row)?),
        ["counts", file] => table(&counted()).counts(file),
        _ => Err(format!("not understood: books {}", arguments.join(" "))),
    }
}

fn same() -> Result<String, String> {
    for case in counted() {
        same::check(&case, &mut Work::new(&case))?;
    }
    Ok(String::new())
}

fn rows(cases: &[Case]) -> Vec<(&Case, Call)> {
    cases.iter().flat_map(|case| case.calls().iter().map(move |call| (case, *call))).collect()
}

fn once(library: usize, row: usize) -> Result<String, String> {
    let cases = counted();
    let (case, call) = *rows(&cases).get(row).ok_or("no such row")?;
    LIBRARIES.get(library).ok_or("no such library")?;
    black_box(Work::new(case).pass(call, library));
    Ok(String::new())
}

/// With a line for each call in each format.
fn table(cases: &[Case]) -> Table {
    let rows = rows(cases);
    let groups = |name: &str| {
        let mut groups = Vec::new();
        for formats in formats() {
            for call in CALLS {
                let of_group = |row: &usize| rows[*row].1 == call && rows[*row].0.formats == formats;
                let cells = [call.name(), name, "all", "all", &formats_text(formats)].map(str::to_string).into();
                groups.push(Group { cells, rows: (0..rows.len()).filter(of_group).collect() });
            }
        }
        groups
    };
    Table {
        columns: &["call", "names", "records", "limit", "format"],
        unit: "record",
        rows: rows.iter().map(|(case, call)| [vec![call.name().to_string()], case.cells()].concat()).collect(),
        means: groups("geometric mean"),
        sums: groups("all"),
    }
}
