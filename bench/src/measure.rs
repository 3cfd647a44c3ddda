//! Times of the sides, taken in turn.

use crate::rows::Row;
use crate::sides::{self, Side, LIBRARY};
use std::time::{Duration, Instant};

/// How long one side is timed without a break: long beside a look at the clock,
/// short beside what else the machine does, so that some times are undisturbed.
const BATCH: Duration = Duration::from_micros(30);

/// How many calls are made before the calls of a batch are counted out.
const FIRST_CALLS: u32 = 20;

/// A row with its sides and their times.
pub struct Measure<'a> {
    /// What is measured.
    pub row: &'a Row,
    sides: [Timed; 3],
}

/// A side with its times, in nanoseconds a call, one for each round.
struct Timed {
    side: Box<dyn Side>,
    calls: u32,
    times: Vec<f64>,
}

impl<'a> Measure<'a> {
    /// The sides at the start of a row, not yet timed.
    pub fn new(row: &'a Row) -> Measure<'a> {
        let timed = |side| Timed { side, calls: FIRST_CALLS, times: vec![] };
        let mut measure = Measure { row, sides: sides::of(row).map(timed) };
        for i in 0..measure.sides.len() {
            let took = measure.batch(i).max(1.0);
            measure.sides[i].calls = (BATCH.as_nanos() as f64 / took).ceil() as u32;
        }
        measure
    }

    /// Times each side once more. The first one changes from round to round.
    pub fn round(&mut self) {
        let rounds = self.sides[LIBRARY].times.len();
        for i in 0..self.sides.len() {
            let i = (rounds + i) % self.sides.len();
            let time = self.batch(i);
            self.sides[i].times.push(time);
        }
    }

    /// The nanoseconds that a call of a side takes, over one batch. Every answer is
    /// looked at, so that no call can be left out: none is a refusal.
    fn batch(&mut self, i: usize) -> f64 {
        let Timed { side, calls, .. } = &mut self.sides[i];
        let mut refused = false;
        let began = Instant::now();
        for _ in 0..*calls {
            if self.row.put_back {
                side.put_back();
            }
            refused |= side.answer(&self.row.call).refusal().is_some();
        }
        let took = began.elapsed().as_nanos() as f64 / f64::from(*calls);
        assert!(!refused, "{}: a call that is timed is refused", self.row.name);
        took
    }

    /// The best time of a side, by its place in `sides::of`.
    pub fn best(&self, side: usize) -> f64 {
        self.sides[side].times.iter().copied().fold(f64::INFINITY, f64::min)
    }

    /// The best time of the library divided by that of another side.
    pub fn ratio(&self, other: usize) -> f64 {
        self.best(LIBRARY) / self.best(other)
    }

    /// The median over all rounds of that ratio.
    pub fn median_ratio(&self, other: usize) -> f64 {
        let rounds = self.sides[LIBRARY].times.iter().zip(&self.sides[other].times);
        let mut ratios: Vec<f64> = rounds.map(|(library, other)| library / other).collect();
        ratios.sort_by(f64::total_cmp);
        ratios[ratios.len() / 2]
    }
}
