use crate::library::{pass, Library, NEW, OLD};
use crate::rounds::{self, Round};
use crate::Row;
use std::hint::black_box;
use std::time::Instant;

/// A turn takes about this long. A scheduler's slice is longer, so that most turns are left alone where other programs run too.
const NANOSECONDS: f64 = 500_000.0;

/// A line for each row: see `rounds::line`.
pub fn lines(rows: &[Row], rounds: usize) -> String {
    rows.iter().map(|row| line(row, rounds)).collect()
}

fn line(row: &Row, rounds: usize) -> String {
    let stretches = stretches(row);
    let laps = rounds.div_ceil(stretches.len()).max(2);
    let mut by_stretch: Vec<Vec<Round>> = stretches.iter().map(|_| Vec::with_capacity(laps)).collect();
    for lap in 0..laps {
        for (number, words) in stretches.iter().enumerate() {
            by_stretch[number].push(round(words, row.limit, lap + number));
        }
    }
    rounds::line(by_stretch)
}

/// The row's words in pieces that take about a turn's time each. How long they take is found in rounds too: the library that is met
/// first has the processor's guesses of branches to itself, and was seen to be 0.8 % faster for long after.
fn stretches<'a>(row: &Row<'a>) -> Vec<&'a [String]> {
    let a_word = (0..4).map(|number| round(row.words, row.limit, number).old()).fold(f64::INFINITY, f64::min);
    let pieces = (a_word * row.words.len() as f64 / NANOSECONDS).ceil() as usize;
    row.words.chunks(row.words.len().div_ceil(pieces)).collect()
}

fn round(words: &[String], limit: Option<usize>, number: usize) -> Round {
    Round::run(number, |library| time([OLD, NEW][library], words, limit))
}

/// Nanoseconds a word. The library is hidden from the compiler, which might else make a pass of its own for each.
fn time(library: Library, words: &[String], limit: Option<usize>) -> f64 {
    let start = Instant::now();
    pass(black_box(library), words, limit);
    start.elapsed().as_nanos() as f64 / words.len() as f64
}
