//! A run over a plan's jobs on all cores.
use crate::jobs::{Job, Plan};
use crate::port::Port;
use crate::shrink;
use crate::trial::Checker;
use oracle::Oracle;
use std::sync::atomic::{AtomicBool, AtomicUsize, Ordering::Relaxed};
use std::sync::Mutex;
use std::thread;
use std::time::Instant;

/// How many comparisons were made, and the difference that came first in the plan, if any.
#[derive(Default)]
pub struct Outcome {
    pub every: u64,
    pub drawn: u64,
    pub pairs: u64,
    /// By the number that was expected.
    pub numbers: [u64; 5],
    /// Encoded words on which the editions differ.
    pub apart: u64,
    /// Rows of listings.
    pub rows: u64,
    pub difference: Option<(usize, String)>,
}

impl Outcome {
    pub fn comparisons(&self) -> u64 {
        self.every + self.drawn + self.pairs
    }

    fn count(&mut self, job: Job, comparisons: u64) {
        *match job {
            Job::Every { .. } => &mut self.every,
            Job::Short { .. } | Job::Sweep { .. } => &mut self.drawn,
            Job::Pairs { .. } => &mut self.pairs,
        } += comparisons;
    }

    fn add(&mut self, other: Outcome) {
        self.every += other.every;
        self.drawn += other.drawn;
        self.pairs += other.pairs;
        self.apart += other.apart;
        self.rows += other.rows;
        for (sum, number) in self.numbers.iter_mut().zip(other.numbers) {
            *sum += number;
        }
        let found = [self.difference.take(), other.difference];
        self.difference = found.into_iter().flatten().min_by_key(|(index, _)| *index);
    }
}

pub struct Run<'a, P> {
    pub oracle: Oracle,
    pub port: &'a P,
    pub plan: Plan,
    pub seed: u64,
    /// When to stop drawing; the plan's other jobs are done in any case.
    pub until: Option<Instant>,
}

impl<P: Port> Run<'_, P> {
    pub fn go(&self, threads: usize) -> Outcome {
        let next = AtomicUsize::new(0);
        let stop = AtomicBool::new(false);
        let sum = Mutex::new(Outcome::default());
        thread::scope(|scope| {
            for _ in 0..threads {
                scope.spawn(|| {
                    let outcome = self.work(&next, &stop);
                    sum.lock().expect("no thread panics with it").add(outcome);
                });
            }
        });
        sum.into_inner().expect("no thread panics with it")
    }

    /// Takes jobs until there are none. Jobs are taken in order and finished once taken, so that the first difference in the
    /// plan's order is found whatever the threads do.
    fn work(&self, next: &AtomicUsize, stop: &AtomicBool) -> Outcome {
        let mut outcome = Outcome::default();
        let mut checker = Checker::new(self.oracle, self.port);
        while !stop.load(Relaxed) && outcome.difference.is_none() {
            let index = next.fetch_add(1, Relaxed);
            let Some((job, optional)) = self.plan.job(index) else { break };
            if optional && self.until.is_some_and(|until| Instant::now() >= until) {
                break;
            }
            let mut comparisons = 0;
            let done = job.run(self.seed, |trial| {
                comparisons += 1;
                checker.check(trial).map_err(|_| shrink::report(&mut checker, trial))
            });
            outcome.count(job, comparisons);
            if let Err(difference) = done {
                outcome.difference = Some((index, difference));
                stop.store(true, Relaxed);
            }
        }
        outcome.numbers = checker.numbers;
        outcome.apart = checker.apart;
        outcome.rows = checker.rows;
        outcome
    }
}
