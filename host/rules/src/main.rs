//! Writes docs/RULES.md and host/simmerquilt/src/cases.rs from the definition of the letter rules. With `--check` it writes nothing, and
//! fails where one of them is not what it would write.
//!
//!     cargo run --offline -p rules [-- --check]
use rules::{check, files, made, Fault};
use std::path::Path;
use std::process::exit;
use std::{env, fs};
use words::EXAMPLES;

fn run(checks: bool) -> Result<(), Fault> {
    let root = Path::new(env!("CARGO_MANIFEST_DIR")).join("../..");
    let made = made(&files(&root), EXAMPLES)?;
    if checks {
        return check(&root, &made);
    }
    for file in made {
        fs::write(root.join(file.path), file.text).map_err(|error| Fault::new(format!("{}: {error}", file.path)))?;
    }
    Ok(())
}

fn main() {
    let arguments: Vec<String> = env::args().skip(1).collect();
    let checks = match arguments.iter().map(String::as_str).collect::<Vec<_>>()[..] {
        [] => false,
        ["--check"] => true,
        _ => {
            eprintln!("rules: the only argument is --check");
            exit(2);
        }
    };
    if let Err(fault) = run(checks) {
        eprintln!("rules: {fault}");
        exit(1);
    }
}
