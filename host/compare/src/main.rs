//! Holds the proved port against the unchanged Rust: number, place, both lengths, visits and every byte of both buffers and of
//! the guards around them. Edition 2, which no crate has, is held in the same way against the copy of the Rust that reads as it does, on
//! the same words, and an edition that is not known against its refusal. The listing of which rule spoke, which no crate has, is held
//! against the evaluator of `plain`, number by number, and that evaluator's codes and visits against the Rust's. Exits with 1 at a
//! difference, shown on its smallest input, and with 2 if it is called wrongly.
mod draw;
mod jobs;
mod lent;
mod listing;
mod port;
mod run;
mod shrink;
#[cfg(test)]
mod tests;
mod trial;

use jobs::Plan;
use oracle::{Oracle, NOT_AT_HAND};
use port::Library;
use run::{Outcome, Run};
use std::env;
use std::process::ExitCode;
use std::thread;
use std::time::{Duration, Instant};

const USAGE: &str = "usage: compare [--seconds N | --full] [--seed S]";

/// How long to compare where nothing is said.
const SECONDS: u64 = 20;

struct Options {
    /// `None` for the full plan.
    seconds: Option<u64>,
    seed: u64,
}

fn options(mut words: impl Iterator<Item = String>) -> Option<Options> {
    let mut options = Options { seconds: Some(SECONDS), seed: 1 };
    while let Some(word) = words.next() {
        match word.as_str() {
            "--full" => options.seconds = None,
            "--seconds" => options.seconds = Some(words.next()?.parse().ok()?),
            "--seed" => options.seed = words.next()?.parse().ok()?,
            _ => return None,
        }
    }
    Some(options)
}

fn main() -> ExitCode {
    let Some(options) = options(env::args().skip(1)) else {
        eprintln!("{USAGE}");
        return ExitCode::from(2);
    };
    let Some(oracle) = Oracle::at_hand() else {
        println!("compare: NOT RUN, nothing was compared: {NOT_AT_HAND}");
        return ExitCode::SUCCESS;
    };
    println!("compare: seed {}", options.seed);
    let run = Run {
        oracle,
        port: &Library,
        plan: if options.seconds.is_some() { Plan::bounded() } else { Plan::full() },
        seed: options.seed,
        until: options.seconds.map(|seconds| Instant::now() + Duration::from_secs(seconds)),
    };
    let threads = thread::available_parallelism().map_or(1, usize::from);
    report(&run.go(threads))
}

fn report(outcome: &Outcome) -> ExitCode {
    let [accepted, long, high, primary, alternate] = outcome.numbers.map(grouped);
    println!(
        "compare: {} on every short word, {} on drawn words, {} on pairs of words",
        grouped(outcome.every),
        grouped(outcome.drawn),
        grouped(outcome.pairs)
    );
    println!("compare: accepted {accepted}; refused by 1 {long}, by 2 {high}, by 3 {primary}, by 4 {alternate}");
    println!(
        "compare: each word also by edition 2, which differs from edition 1 on {}, and by an edition that is not known",
        grouped(outcome.apart)
    );
    println!("compare: each of these also listed, rule by rule, beside the plain evaluator: {} rows", grouped(outcome.rows));
    let comparisons = grouped(outcome.comparisons());
    match &outcome.difference {
        None => {
            println!("compare: {comparisons} comparisons, 0 differences");
            ExitCode::SUCCESS
        }
        Some((_, difference)) => {
            println!("compare: a DIFFERENCE after {comparisons} comparisons\n{difference}");
            ExitCode::FAILURE
        }
    }
}

/// 1234567 as 1,234,567.
fn grouped(number: u64) -> String {
    let digits = number.to_string();
    let groups: Vec<&str> =
        digits.as_bytes().rchunks(3).rev().map(|group| std::str::from_utf8(group).unwrap_or("")).collect();
    groups.join(",")
}
