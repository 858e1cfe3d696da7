use crate::library::{NEW, OLD};

/// What both libraries took for the same work, in nanoseconds a word or a record.
pub struct Round {
    old: f64,
    new: f64,
    old_first: bool,
}

impl Round {
    /// The libraries, 0 for old and 1 for new, change places from round to round. That which lies first in the program begins, so that a
    /// build with the other first is in all this the opposite.
    pub fn run(number: usize, mut turn: impl FnMut(usize) -> f64) -> Round {
        let old_first = OLD.lies_before(NEW) != (number % 2 == 1);
        if old_first {
            let old = turn(0);
            Round { old, new: turn(1), old_first }
        } else {
            let new = turn(1);
            Round { old: turn(0), new, old_first }
        }
    }

    pub fn old(&self) -> f64 {
        self.old
    }
}

/// What a row's rounds found, each stretch of its work having its own: old and new in nanoseconds, the ratio of new to old, and that of
/// the fastest rounds.
pub fn line(by_stretch: Vec<Vec<Round>>) -> String {
    let fastest = fastest(&by_stretch);
    let rounds: Vec<Round> = by_stretch.into_iter().flatten().collect();
    let old = median(rounds.iter().map(|round| round.old));
    let new = median(rounds.iter().map(|round| round.new));
    format!("{old} {new} {} {fastest}\n", ratio(&rounds))
}

/// The median of the rounds' ratios. The second turn finds the words in the nearest cache, so that rounds which old begins and those
/// which new begins have a median each, and the middle of both is taken.
fn ratio(rounds: &[Round]) -> f64 {
    let [one, other] = [true, false]
        .map(|first| median(rounds.iter().filter(|round| round.old_first == first).map(|round| round.new / round.old)));
    (one * other).sqrt()
}

/// The ratio of the least times, each stretch having its own.
fn fastest(by_stretch: &[Vec<Round>]) -> f64 {
    let least = |of: fn(&Round) -> f64| -> f64 {
        by_stretch.iter().map(|rounds| rounds.iter().map(of).fold(f64::INFINITY, f64::min)).sum()
    };
    least(|round| round.new) / least(|round| round.old)
}

/// Of an even count the middle of both middle ones: the greater would make few rounds' ratios too great.
fn median(numbers: impl Iterator<Item = f64>) -> f64 {
    let mut numbers: Vec<f64> = numbers.collect();
    numbers.sort_by(f64::total_cmp);
    (numbers[(numbers.len() - 1) / 2] + numbers[numbers.len() / 2]) / 2.0
}
