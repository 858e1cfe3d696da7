//! The lines and windows of the cases as Rust data, laid out for a reader.
use crate::table::{Case, Table, Window};

/// The widest line, as host/rustfmt.toml has it.
const WIDTH: usize = 125;

const HEADER: &str = "\
//! The cases of the letter rules in words, with the window tests that tell a text. Made by host/rules from crates/rules/specs:
//! do not edit; `cargo run --offline -p rules` in host/ makes it anew.
use crate::rules::{Case, Letter, Spot, Window};

/// The rows of the table in its order; the last is that of all bytes outside A to Z.
#[rustfmt::skip]
";

/// A Rust expression.
enum Term {
    Plain(String),
    Text(String),
    Slice(Vec<Term>),
    Struct(&'static str, Vec<(&'static str, Term)>),
}

/// The text of the file. `lines` has the line of each case of each row.
pub fn data(table: &Table, lines: &[Vec<String>]) -> String {
    let rows = table.rows.iter().zip(lines).map(|(row, lines)| {
        let cases = row.cases.iter().zip(lines).map(|(own, line)| case(own, line)).collect();
        Term::Struct("Letter", vec![("keys", Term::Text(row.keys.clone())), ("cases", Term::Slice(cases))])
    });
    let mut file = format!("{HEADER}pub(crate) const LETTERS: &[Letter] = ");
    Term::Slice(rows.collect()).lay(&mut file, 0, 0);
    file + ";\n"
}

fn case(case: &Case, line: &str) -> Term {
    let windows = case.when.windows().into_iter().map(window).collect();
    let fields = vec![("when", Term::Text(line.to_string())), ("windows", Term::Slice(windows))];
    Term::Struct("Case", fields)
}

fn window(window: &Window) -> Term {
    let texts = window.texts.iter().map(|text| Term::Text(text.clone())).collect();
    let fields = vec![
        ("spot", Term::Plain(format!("Spot::{:?}", window.spot))),
        ("width", Term::Plain(window.width.to_string())),
        ("texts", Term::Slice(texts)),
    ];
    Term::Struct("Window", fields)
}

impl Term {
    /// The term in one line.
    fn flat(&self) -> String {
        match self {
            Term::Plain(words) => words.clone(),
            Term::Text(text) => format!("\"{text}\""),
            Term::Slice(terms) => format!("&[{}]", terms.iter().map(Term::flat).collect::<Vec<_>>().join(", ")),
            Term::Struct(name, fields) => {
                let fields: Vec<String> = fields.iter().map(|(field, term)| format!("{field}: {}", term.flat())).collect();
                format!("{name} {{ {} }}", fields.join(", "))
            }
        }
    }

    /// Lays the term out behind `used` letters of a line and before a comma: in that line where it fits, else over several.
    fn lay(&self, file: &mut String, indent: usize, used: usize) {
        let flat = self.flat();
        if indent + used + flat.chars().count() < WIDTH {
            file.push_str(&flat);
            return;
        }
        let margin = " ".repeat(indent + 4);
        match self {
            Term::Plain(words) => file.push_str(words),
            Term::Text(text) => file.push_str(&wrapped(text, indent, used)),
            Term::Slice(terms) => {
                file.push_str("&[\n");
                for term in terms {
                    file.push_str(&margin);
                    term.lay(file, indent + 4, 0);
                    file.push_str(",\n");
                }
                file.push_str(&format!("{}]", &margin[4..]));
            }
            Term::Struct(name, fields) => {
                file.push_str(&format!("{name} {{\n"));
                for (field, term) in fields {
                    file.push_str(&format!("{margin}{field}: "));
                    term.lay(file, indent + 4, field.len() + 2);
                    file.push_str(",\n");
                }
                file.push_str(&format!("{}}}", &margin[4..]));
            }
        }
    }
}

/// A text over several lines, each but the last ended by a space and a backslash.
fn wrapped(text: &str, indent: usize, used: usize) -> String {
    let margin = " ".repeat(indent + 4);
    let mut file = "\"".to_string();
    let mut column = indent + used + 1;
    for (index, word) in text.split(' ').enumerate() {
        let length = word.chars().count();
        if index > 0 {
            file.push(' ');
            column += 1;
            // Room is kept for the space and the backslash, or the quote and the comma; rustfmt leaves one column more.
            if column + length + 2 >= WIDTH {
                file.push_str(&format!("\\\n{margin}"));
                column = indent + 4;
            }
        }
        file.push_str(word);
        column += length;
    }
    file + "\""
}
