//! How long something takes, at its best.

use std::time::{Duration, Instant};

pub const REPETITIONS: usize = 60;

const REPETITION: Duration = Duration::from_millis(1);

/// The least time of a round so far.
pub struct Clock {
    rounds: u32,
    least: Duration,
}

impl Clock {
    /// Warms up, and finds how many rounds make a repetition long enough to be timed.
    pub fn new(mut round: impl FnMut()) -> Clock {
        let mut clock = Clock {
            rounds: 1,
            least: Duration::MAX,
        };
        while clock.timed(&mut round) < REPETITION {
            clock.rounds *= 2;
        }
        clock
    }

    /// One repetition more.
    pub fn repeat(&mut self, mut round: impl FnMut()) {
        self.least = self.least.min(self.timed(&mut round));
    }

    /// Nanoseconds of a round.
    pub fn best(&self) -> f64 {
        self.least.as_nanos() as f64 / f64::from(self.rounds)
    }

    fn timed(&self, round: &mut impl FnMut()) -> Duration {
        let start = Instant::now();
        for _ in 0..self.rounds {
            round();
        }
        start.elapsed()
    }
}
