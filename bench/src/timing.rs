//! Times, and the table.

use std::time::Instant;

/// Most runs of a pair, the time after which no more are begun, and the least of a run's length.
const MOST_RUNS: usize = 25;
const LONG_ENOUGH: f64 = 4.0;
const SHORTEST_RUN: f64 = 0.005;

/// Seconds of the two for the same work: the best of several runs each. They take turns, so that another program on the machine slows both.
pub fn seconds_of_both(mut ours: impl FnMut(), mut theirs: impl FnMut()) -> (f64, f64) {
    let once = time(&mut ours, 1).min(time(&mut theirs, 1));
    let turns = ((SHORTEST_RUN / once.max(1e-9)) as usize).clamp(1, 1_000_000);
    let began = Instant::now();
    let mut best = (f64::MAX, f64::MAX);
    for run in 0..MOST_RUNS {
        best.0 = best.0.min(time(&mut ours, turns) / turns as f64);
        best.1 = best.1.min(time(&mut theirs, turns) / turns as f64);
        if run >= 2 && began.elapsed().as_secs_f64() > LONG_ENOUGH {
            break;
        }
    }
    best
}

fn time(work: &mut impl FnMut(), turns: usize) -> f64 {
    let began = Instant::now();
    for _ in 0..turns {
        work();
    }
    began.elapsed().as_secs_f64()
}

/// One line of the table: what was done, on how much, and the two times.
pub struct Row {
    name: &'static str,
    size: usize,
    unit: &'static str,
    times: (f64, f64),
}

impl Row {
    pub fn heading() {
        println!("{:<22} {:>16} {:>13} {:>13} {:>13} {:>7}", "work", "size", "proved ns", "Rust ns", "proved ns/1", "ratio");
    }

    pub fn new(name: &'static str, size: usize, unit: &'static str, times: (f64, f64)) -> Row {
        Row { name, size, unit, times }
    }

    pub fn show(&self) {
        let (ours, theirs) = self.times;
        println!(
            "{:<22} {:>10} {:<5} {:>13.0} {:>13.0} {:>13.3} {:>7.2}",
            self.name,
            self.size,
            self.unit,
            ours * 1e9,
            theirs * 1e9,
            ours * 1e9 / self.size as f64,
            ours / theirs
        );
    }
}
