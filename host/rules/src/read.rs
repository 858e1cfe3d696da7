//! Reads the table from the definition's own files: crates/rules/specs/Table.antt, and those that it takes its cases from. What is not
//! known is a fault, and nothing is guessed.
mod files;
mod known;
mod terms;
mod tokens;

use crate::table::{Cond, Row, Table};
use files::{uses, Files};
use std::fmt;
use terms::Scope;
use tokens::{items, Cursor, Token};

/// The file that the table stands in.
pub const TABLE: &str = "crates/rules/specs/Table.antt";

/// What was not understood, and where.
#[derive(Clone, Debug, PartialEq, Eq)]
pub struct Fault(String);

impl Fault {
    pub fn new(what: impl Into<String>) -> Self {
        Fault(what.into())
    }

    fn at(file: &str, line: usize, what: &str) -> Self {
        Fault(format!("{file}:{line}: {what}"))
    }
}

impl fmt::Display for Fault {
    fn fmt(&self, formatter: &mut fmt::Formatter) -> fmt::Result {
        formatter.write_str(&self.0)
    }
}

/// Gives the text of a file by its path from the repository's root.
pub type Source<'a> = &'a dyn Fn(&str) -> Result<String, Fault>;

/// Reads the table.
pub fn read(source: Source) -> Result<Table, Fault> {
    known::check(source)?;
    let items = items(TABLE, &source(TABLE)?)?;
    let equations: Vec<&Vec<Token>> = items.iter().filter(|item| item[0].is("rows")).collect();
    let [equation] = equations[..] else {
        return Err(Fault::new(format!("{TABLE}: `rows` has {} equations, and not one", equations.len())));
    };
    let uses = uses(TABLE, &items)?;
    let files = Files::of(source, uses.values())?;
    let mut rows = Vec::new();
    let mut cursor = Cursor::new(TABLE, equation);
    cursor.expect("rows")?;
    cursor.expect("=")?;
    while !cursor.takes("[]") {
        cursor.expect("row")?;
        let keys = cursor.text()?;
        let name = cursor.word()?;
        let Some(found) = files.taken(&uses, &name) else {
            return Err(cursor.fault_before(&format!("`{name}` is defined in no file that is taken from")));
        };
        rows.push(Row { keys, cases: Scope::of(&files, found).row()? });
        cursor.expect("∷")?;
    }
    cursor.ended()?;
    let Some(rest) = files.taken(&uses, "cases_rest") else {
        return Err(Fault::new(format!("{TABLE}: `cases_rest` is defined in no file that is taken from")));
    };
    rows.push(Row { keys: String::new(), cases: Scope::of(&files, rest).row()? });
    let table = Table { rows };
    well_formed(&table)?;
    Ok(table)
}

/// Each letter has one row, each row a last case that always holds and no other such, and each text is in capitals.
fn well_formed(table: &Table) -> Result<(), Fault> {
    let mut letters: Vec<char> = table.rows.iter().flat_map(|row| row.keys.chars()).collect();
    letters.sort_unstable();
    if !letters.into_iter().eq('A'..='Z') || table.rows.iter().filter(|row| row.keys.is_empty()).count() != 1 {
        return Err(Fault::new(format!("{TABLE}: the rows do not have each letter from A to Z once")));
    }
    for row in &table.rows {
        let always = row.cases.iter().position(|case| case.when == Cond::Always);
        if always.map(|index| index + 1) != Some(row.cases.len()) {
            return Err(Fault::new(format!("{TABLE}: row {} does not end at its first case `always`", row.name())));
        }
        for case in &row.cases {
            let windows = case.when.windows().into_iter().flat_map(|window| &window.texts);
            for text in windows.chain([&case.primary, &case.alternate]) {
                if !text.bytes().all(|byte| byte == b' ' || byte == b'0' || byte.is_ascii_uppercase()) {
                    return Err(Fault::new(format!("{}: \"{text}\" is not in capitals", case.at)));
                }
            }
        }
    }
    Ok(())
}
