//! Times of two sides, one after the other in turn, so that what else the computer does falls on both.
use crate::processor;
use crate::sides::Side;
use std::hint::black_box;
use std::time::{Duration, Instant};

pub const RUNS: usize = 20;

/// The times of all runs by one measure, shortest first.
pub struct Times(Vec<Duration>);

impl Times {
    fn of(mut times: Vec<Duration>) -> Times {
        times.sort();
        Times(times)
    }

    pub fn median(&self) -> Duration {
        let middle = self.0.len() / 2;
        (self.0[middle - 1] + self.0[middle]) / 2
    }

    pub fn least(&self) -> Duration {
        self.0[0]
    }

    pub fn most(&self) -> Duration {
        self.0[self.0.len() - 1]
    }
}

/// The times of one side: of the thread on its processor, and by the clock.
pub struct Measured {
    pub processor: Times,
    pub clock: Times,
}

/// Has the allocator put away now what the side before has freed: it would else do so at the next large request, in the other side's time.
fn settle() {
    drop(black_box(vec![0_u8; 64 << 20]));
}

/// One run: processor and clock.
fn time(side: Side, text: &str) -> (Duration, Duration) {
    settle();
    let clock = Instant::now();
    let start = processor::time();
    black_box(side(black_box(text)));
    (processor::time() - start, clock.elapsed())
}

pub fn in_turn(sides: [Side; 2], text: &str) -> [Measured; 2] {
    let mut runs = [vec![], vec![]];
    // Once each for nothing: code and memory are then as they will be.
    for side in sides {
        time(side, text);
    }
    for _ in 0..RUNS {
        for (runs, side) in runs.iter_mut().zip(sides) {
            runs.push(time(side, text));
        }
    }
    runs.map(|runs| {
        let (processor, clock) = runs.into_iter().unzip();
        Measured { processor: Times::of(processor), clock: Times::of(clock) }
    })
}
