//! All there is to compile anew for each build; the rest is compiled once.
use std::process::ExitCode;

fn main() -> ExitCode {
    turns::main()
}
