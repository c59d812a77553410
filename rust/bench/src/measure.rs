//! How a row is measured: first that all do the same, then how long each takes.

use crate::clock::{Clock, REPETITIONS};
use crate::work::{Contender, Done};
use std::fmt::Debug;
use std::hint::black_box;

/// Somebody, whoever it is.
pub type Anybody<'s, W> = Box<dyn Contender<W> + 's>;

/// What a round comes to; everybody who offers it must come to the same.
pub fn agreed<W: Debug>(contenders: &mut [Anybody<W>], work: &W) -> Done {
    let mut all = contenders.iter_mut();
    let first = all.next().and_then(|store| store.run(work));
    let first = first.expect("the store offers everything");
    for contender in all {
        if let Some(done) = contender.run(work) {
            assert_eq!(done, first, "{} at {work:?}", contender.name());
        }
    }
    assert!(first.count > 0);
    first
}

/// The nanoseconds of a round, for everybody who offers it. Their repetitions take turns, so that what else the machine
/// does meets all of them.
pub fn timed<W>(contenders: &mut [Anybody<W>], work: &W) -> Vec<(&'static str, f64)> {
    let mut clocks = Vec::new();
    for contender in contenders {
        if contender.run(work).is_some() {
            let clock = Clock::new(|| round(contender, work));
            clocks.push((contender, clock));
        }
    }
    for _ in 0..REPETITIONS {
        for (contender, clock) in &mut clocks {
            clock.repeat(|| round(contender, work));
        }
    }
    let best = clocks.iter();
    best.map(|(contender, clock)| (contender.name(), clock.best()))
        .collect()
}

fn round<W>(contender: &mut Anybody<W>, work: &W) {
    black_box(contender.run(work));
}
