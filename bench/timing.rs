// Samples of how long something takes, and their median.

use std::hint::black_box;
use std::time::Instant;

pub struct Samples {
    nanoseconds: Vec<u64>,
}

impl Samples {
    pub fn new() -> Samples {
        Samples {
            nanoseconds: Vec::new(),
        }
    }

    // How long it takes, for each of so many things that are done.
    pub fn add<T>(&mut self, each: u64, work: impl FnOnce() -> T) {
        let start = Instant::now();
        black_box(work());
        self.nanoseconds
            .push(start.elapsed().as_nanos() as u64 / each);
    }

    pub fn median(mut self) -> u64 {
        self.nanoseconds.sort_unstable();
        self.nanoseconds[self.nanoseconds.len() / 2]
    }
}

// The median of samples, each of so many times in a row.
pub fn median_of<T>(samples: u32, times: u64, mut work: impl FnMut() -> T) -> u64 {
    let mut taken = Samples::new();
    for _ in 0..samples {
        taken.add(times, || {
            for _ in 0..times {
                black_box(work());
            }
        });
    }
    taken.median()
}
