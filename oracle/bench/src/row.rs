//! One row of a table: the same work on both sides, and how it is measured.

use std::time::{Duration, Instant};

/// Work to be done a number of times.
type Work = Box<dyn FnMut(u64)>;

/// The work of both sides over the same inputs.
struct Pair {
    ours: Work,
    rust: Work,
}

#[derive(Clone, Copy)]
pub enum Side {
    Ours,
    Rust,
}

pub struct Row {
    pub name: String,
    prepare: Box<dyn Fn() -> Pair>,
}

/// How long one batch lasts at least, and how many batches each side gets.
const BATCH: Duration = Duration::from_micros(800);
const BATCHES: usize = 60;

impl Row {
    /// A row whose inputs are made when it is its turn; `prepare` gives one call of each side.
    pub fn new<Ours, Rust>(
        name: impl Into<String>,
        prepare: impl Fn() -> (Ours, Rust) + 'static,
    ) -> Row
    where
        Ours: FnMut() + 'static,
        Rust: FnMut() + 'static,
    {
        let prepare = move || {
            let (ours, rust) = prepare();
            Pair {
                ours: repeated(ours),
                rust: repeated(rust),
            }
        };
        Row {
            name: name.into(),
            prepare: Box::new(prepare),
        }
    }

    /// One side, a number of times.
    pub fn run(&self, side: Side, times: u64) {
        let mut pair = (self.prepare)();
        match side {
            Side::Ours => (pair.ours)(times),
            Side::Rust => (pair.rust)(times),
        }
    }

    /// Nanoseconds of one call, ours and the Rust's: the best of many batches, side by side.
    pub fn measure(&self) -> (f64, f64) {
        let mut pair = (self.prepare)();
        let ours_times = times_in_a_batch(&mut pair.ours);
        let rust_times = times_in_a_batch(&mut pair.rust);
        let (mut ours, mut rust) = (f64::INFINITY, f64::INFINITY);
        for _ in 0..BATCHES {
            ours = ours.min(nanoseconds(&mut pair.ours, ours_times));
            rust = rust.min(nanoseconds(&mut pair.rust, rust_times));
        }
        (ours, rust)
    }
}

/// The loop is compiled for the call, so that counting costs next to nothing.
fn repeated(mut call: impl FnMut() + 'static) -> Work {
    Box::new(move |times| (0..times).for_each(|_| call()))
}

fn times_in_a_batch(work: &mut Work) -> u64 {
    let mut times = 1;
    loop {
        let start = Instant::now();
        work(times);
        if start.elapsed() >= BATCH {
            return times;
        }
        times *= 2;
    }
}

fn nanoseconds(work: &mut Work, times: u64) -> f64 {
    let start = Instant::now();
    work(times);
    start.elapsed().as_nanos() as f64 / times as f64
}
