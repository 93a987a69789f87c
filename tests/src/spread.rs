//! Trials spread over threads, by blocks of trial numbers. What a trial does goes by its number alone, so that the
//! counts, and the first difference, are the same with any number of threads.

use std::any::Any;
use std::panic::{catch_unwind, AssertUnwindSafe};
use std::sync::atomic::{AtomicU64, Ordering::SeqCst};
use std::thread;
use std::time::Duration;

use crate::progress::Progress;
use crate::tally::{Outcome, Tally};

/// How many trials a thread takes at a time.
const BLOCK: u64 = 32;
/// How often it is looked whether the threads have ended.
const LOOK: Duration = Duration::from_millis(10);

/// A trial that differs: its number, and what is wrong.
#[derive(Debug, PartialEq, Eq)]
pub struct Difference {
    pub number: u64,
    pub what: String,
}

/// Runs one trial. One that panics differs too.
pub fn guarded(trial: impl Fn(u64) -> Result<Outcome, String>, number: u64) -> Result<Outcome, Difference> {
    let outcome = catch_unwind(AssertUnwindSafe(|| trial(number))).unwrap_or_else(|panic| Err(said(panic)));
    outcome.map_err(|what| Difference { number, what })
}

fn said(panic: Box<dyn Any + Send>) -> String {
    let words = panic.downcast_ref::<String>().cloned();
    let words = words.or_else(|| panic.downcast_ref::<&str>().map(|words| words.to_string()));
    format!("the trial panicked: {}", words.unwrap_or_default())
}

/// What the threads share.
struct Work<T> {
    trial: T,
    total: u64,
    /// The first number that no thread has taken yet.
    next: AtomicU64,
    done: AtomicU64,
    /// The least number that is known to differ. No trial above it is begun.
    least: AtomicU64,
}

impl<T: Fn(u64) -> Result<Outcome, String>> Work<T> {
    /// Takes block after block. Blocks go out in order, and each is run up to the least difference known: so every
    /// trial below the least one has been run when all threads have ended.
    fn run(&self) -> (Tally, Option<Difference>) {
        let mut tally = Tally::default();
        loop {
            let from = self.next.fetch_add(BLOCK, SeqCst);
            if from >= self.total || from > self.least.load(SeqCst) {
                return (tally, None);
            }
            if let Err(difference) = self.block(from, &mut tally) {
                self.least.fetch_min(difference.number, SeqCst);
                return (tally, Some(difference));
            }
        }
    }

    fn block(&self, from: u64, tally: &mut Tally) -> Result<(), Difference> {
        let numbers = from..self.total.min(from + BLOCK);
        for number in numbers.take_while(|&number| number < self.least.load(SeqCst)) {
            tally.add(guarded(&self.trial, number)?);
            self.done.fetch_add(1, SeqCst);
        }
        Ok(())
    }
}

/// Runs the trials from 0 up to, and without, `total` in so many threads. Gives their counts, or the first difference.
pub fn spread<T>(name: &str, total: u64, threads: u64, trial: T) -> Result<Tally, Difference>
where
    T: Fn(u64) -> Result<Outcome, String> + Sync,
{
    let (next, done, least) = (AtomicU64::new(0), AtomicU64::new(0), AtomicU64::new(u64::MAX));
    let work = Work { trial, total, next, done, least };
    let mut progress = Progress::new(name, total);
    let ended: Vec<(Tally, Option<Difference>)> = thread::scope(|scope| {
        let threads: Vec<_> = (0..threads).map(|_| scope.spawn(|| work.run())).collect();
        while !threads.iter().all(|thread| thread.is_finished()) {
            thread::sleep(LOOK);
            progress.tick(work.done.load(SeqCst));
        }
        threads.into_iter().map(|thread| thread.join().expect("trials that panic are caught")).collect()
    });
    progress.end();
    let mut all = Tally::default();
    ended.iter().for_each(|(tally, _)| all.merge(tally));
    let first = ended.into_iter().filter_map(|(_, difference)| difference).min_by_key(|difference| difference.number);
    first.map_or(Ok(all), Err)
}

#[cfg(test)]
mod tests {
    use super::*;

    #[test]
    fn every_trial_is_run_once_with_any_number_of_threads() {
        for (total, threads) in [(0, 1), (1, 4), (31, 2), (32, 2), (33, 3), (1000, 1), (1000, 7)] {
            let tally = spread("test", total, threads, |number| Ok(Some(number).into())).unwrap();
            let mut each = Tally::default();
            (0..total).for_each(|number| each.add(Some(number)));
            assert_eq!(tally, each, "{total} trials in {threads} threads");
        }
    }

    /// The later difference is found at once, the earlier one only after a while.
    #[test]
    fn the_first_difference_is_told_and_not_the_quickest() {
        let trial = |number: u64| match number {
            5 => {
                thread::sleep(Duration::from_millis(60));
                Err("slow".to_string())
            }
            40.. => Err("quick".to_string()),
            _ => Ok(Some(0).into()),
        };
        let first = Difference { number: 5, what: "slow".to_string() };
        assert_eq!(spread("test", 500, 4, trial), Err(first));
    }

    #[test]
    fn a_trial_that_panics_differs() {
        let trial = |number: u64| if number == 70 { panic!("no {number}") } else { Ok(Some(0).into()) };
        let told = Difference { number: 70, what: "the trial panicked: no 70".to_string() };
        assert_eq!(spread("test", 100, 2, trial), Err(told));
    }
}
