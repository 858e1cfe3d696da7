use super::case::{cases, Call, Case};
use super::same::check;
use super::work::Work;
use crate::rounds::{self, Round};
use std::hint::black_box;
use std::time::Instant;

/// A line for each row: see `rounds::line`. Each case is compared before, since the books are there then.
pub fn lines(rounds: usize) -> Result<String, String> {
    cases().iter().map(|case| of_case(case, rounds)).collect()
}

fn of_case(case: &Case, rounds: usize) -> Result<String, String> {
    let mut work = Work::new(case);
    check(case, &mut work)?;
    // Of both books, where there are two.
    let records = case.records * work.lists.len();
    let mut line = |call: &Call| {
        let rounds = 0..case.rounds(rounds);
        let rounds = rounds.map(|number| Round::run(number, |which| time(&mut work, *call, which) / records as f64));
        rounds::line(vec![rounds.collect()])
    };
    Ok(case.calls().iter().map(&mut line).collect())
}

/// Nanoseconds.
fn time(work: &mut Work, call: Call, which: usize) -> f64 {
    let start = Instant::now();
    black_box(work.pass(call, which));
    start.elapsed().as_nanos() as f64
}
