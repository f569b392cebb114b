//! Medians of rounds that alternate between the two sides. Each round has the heap moved on a little: the Rust's time goes by
//! where its blocks come to lie, up to a factor of two, and so the median is over many places.

use std::hint::black_box;
use std::time::Instant;

const ROUNDS: usize = 31;
const TURNS: u32 = 1000;

/// Nanoseconds a turn, the median of the rounds.
pub struct Row {
    pub name: String,
    pub reference: f64,
    pub proved: f64,
}

impl Row {
    pub fn measure(name: String, mut reference: impl FnMut(), mut proved: impl FnMut()) -> Self {
        let (mut theirs, mut ours) = (Vec::new(), Vec::new());
        for n in 0..ROUNDS {
            let taken: Vec<Vec<u8>> = (0..n).map(|_| Vec::with_capacity(256)).collect();
            theirs.push(round(&mut reference));
            ours.push(round(&mut proved));
            drop(black_box(taken));
        }
        Self { name, reference: median(theirs), proved: median(ours) }
    }

    pub fn times(&self) -> f64 {
        self.reference / self.proved
    }
}

fn round(work: &mut impl FnMut()) -> f64 {
    let start = Instant::now();
    for _ in 0..TURNS {
        work();
    }
    start.elapsed().as_nanos() as f64 / f64::from(TURNS)
}

pub fn median(mut times: Vec<f64>) -> f64 {
    times.sort_by(f64::total_cmp);
    times[times.len() / 2]
}
