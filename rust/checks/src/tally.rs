//! How often everything was met that a run has to meet, so that a generator which
//! no longer reaches something is noticed. The run is shared out to all cores.

use std::collections::{BTreeMap, BTreeSet};
use std::io::Write;
use std::thread;

/// Something to be met, by its name, and what tells whether it is.
pub type Row<F> = (&'static str, F);

/// The names of the rows that hold.
pub fn that_hold<F>(rows: &[Row<F>], holds: impl Fn(&F) -> bool) -> Vec<String> {
    rows.iter().filter(|(_, test)| holds(test)).map(|(name, _)| name.to_string()).collect()
}

/// The names of all rows.
pub fn names<F>(rows: &[Row<F>]) -> Vec<String> {
    that_hold(rows, |_| true)
}

/// How many things a run had, and how often each key was met in them.
#[derive(Default)]
pub struct Tally {
    things: usize,
    counts: BTreeMap<String, usize>,
}

impl Tally {
    /// Does the pieces of work numbered from 0 up to `count`, on all cores. Each
    /// core counts what its pieces meet. A piece that panics fails the test.
    pub fn over(count: usize, piece: impl Fn(&mut Tally, usize) + Sync) -> Tally {
        let workers = thread::available_parallelism().map_or(2, |cores| cores.get());
        let piece = &piece;
        let work = move |worker: usize| {
            let mut tally = Tally::default();
            (worker..count).step_by(workers).for_each(|number| piece(&mut tally, number));
            tally
        };
        let mut total = Tally::default();
        thread::scope(|scope| {
            let started: Vec<_> =
                (0..workers).map(|worker| scope.spawn(move || work(worker))).collect();
            for worker in started {
                total.merge(worker.join().expect("every piece is as it should be"));
            }
        });
        total
    }

    /// Counts a thing, with all that was met in it.
    pub fn add(&mut self, met: impl IntoIterator<Item = String>) {
        self.things += 1;
        met.into_iter().for_each(|key| *self.counts.entry(key).or_default() += 1);
    }

    /// Adds what another tally counted.
    pub fn merge(&mut self, other: Tally) {
        self.things += other.things;
        for (key, count) in other.counts {
            *self.counts.entry(key).or_default() += count;
        }
    }

    /// Prints all counts. Fails the test unless there were so many things, each key
    /// that can be met was met `least` times or more, and no other was met.
    pub fn check(&self, (things, called): (usize, &str), possible: Vec<String>, least: usize) {
        let count = |key: &String| self.counts.get(key).copied().unwrap_or(0);
        let all: Vec<String> = possible.iter().map(|key| format!("{key} {}", count(key))).collect();
        // Written past the test harness, which would keep a print to itself.
        writeln!(std::io::stdout(), "generated: {} {called}: {}", self.things, all.join("; "))
            .expect("the summary can be printed");
        assert!(self.things >= things, "too few {called}: {}", self.things);
        let scarce: Vec<&String> = possible.iter().filter(|key| count(key) < least).collect();
        assert_eq!(scarce, [""; 0], "too few of these");
        let possible: BTreeSet<&String> = possible.iter().collect();
        let others: Vec<&String> = self.counts.keys().filter(|k| !possible.contains(k)).collect();
        assert_eq!(others, [""; 0], "met though they cannot be");
    }
}
