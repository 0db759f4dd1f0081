// Times the sides of a case, in turn, and prints a line for each case: what bench/table.py reads.

use crate::allocations::counted;
use std::time::{Duration, Instant};

// A side is run at least so often and for so long, some runs at a time and in turn with the others.
pub struct Runs {
    pub least: usize,
    pub time: Duration,
    pub at_a_time: usize,
}

pub const SHORT: Runs = Runs {
    least: 200,
    time: Duration::from_millis(200),
    at_a_time: 20,
};

// For calls of some milliseconds.
pub const LONG: Runs = Runs {
    least: 20,
    time: Duration::from_millis(500),
    at_a_time: 2,
};

pub fn timed(call: impl FnOnce()) -> Duration {
    let start = Instant::now();
    call();
    start.elapsed()
}

struct Side<'a> {
    name: String,
    run: Box<dyn FnMut() -> Duration + 'a>,
    best: Duration,
    spent: Duration,
}

#[derive(Default)]
pub struct Sides<'a>(Vec<Side<'a>>);

impl<'a> Sides<'a> {
    pub fn add(&mut self, name: &str, mut call: impl FnMut() + 'a) {
        self.add_timed(name, move || timed(&mut call));
    }

    // A side that says itself how long it took: what it does beside the call is not counted.
    pub fn add_timed(&mut self, name: &str, run: impl FnMut() -> Duration + 'a) {
        self.0.push(Side {
            name: name.to_string(),
            run: Box::new(run),
            best: Duration::MAX,
            spent: Duration::ZERO,
        });
    }

    // Prints the best time of each side, in microseconds, and before it what each side of the Rust allocates.
    pub fn measure(mut self, case: &str, runs: &Runs) {
        for side in &mut self.0 {
            if ["driver", "lent"].contains(&side.name.as_str()) {
                let (calls, bytes) = counted(&mut side.run);
                println!("allocates\t{case}\t{}\t{calls}\t{bytes}", side.name);
            }
        }
        let mut done = 0;
        while done < runs.least || self.0.iter().any(|side| side.spent < runs.time) {
            for side in &mut self.0 {
                for _ in 0..runs.at_a_time {
                    let time = (side.run)();
                    side.best = side.best.min(time);
                    side.spent += time;
                }
            }
            done += runs.at_a_time;
        }
        print!("time\t{case}");
        for side in &self.0 {
            print!("\t{}={:.2}", side.name, side.best.as_secs_f64() * 1e6);
        }
        println!();
    }
}
