//! The times of calls that are run in turn.
use std::time::{Duration, Instant};

/// A call that takes less is repeated within one measurement, since the clock is not fine enough for it.
const SHORTEST: Duration = Duration::from_millis(2);

/// A call that works on what all calls share.
pub type Call<'c, W> = &'c dyn Fn(&mut W);

/// The time that a call took in each round, in seconds.
pub struct Times(Vec<f64>);

impl Times {
    pub fn least(&self) -> f64 {
        self.0.iter().copied().fold(f64::INFINITY, f64::min)
    }

    /// The median of the rounds' ratios to another call. Both calls of a round meet the same load of the machine.
    pub fn median_ratio(&self, other: &Times) -> f64 {
        let mut ratios: Vec<f64> = self.0.iter().zip(&other.0).map(|(own, other)| own / other).collect();
        ratios.sort_by(f64::total_cmp);
        ratios[ratios.len() / 2]
    }
}

/// Runs the calls in turn, for a number of rounds.
pub fn in_turn<W: ?Sized, const N: usize>(rounds: usize, work: &mut W, calls: [Call<W>; N]) -> [Times; N] {
    let repeats = calls.map(|call| repeats_of(work, call));
    let mut times = calls.map(|_| Times(Vec::with_capacity(rounds)));
    for _ in 0..rounds {
        for i in 0..N {
            times[i].0.push(time_of(work, calls[i], repeats[i]));
        }
    }
    times
}

/// How often a call is to be repeated; this is also its first run, which counts for nothing else.
fn repeats_of<W: ?Sized>(work: &mut W, call: Call<W>) -> u32 {
    let start = Instant::now();
    let mut repeats = 0;
    while start.elapsed() < SHORTEST {
        call(work);
        repeats += 1;
    }
    repeats
}

fn time_of<W: ?Sized>(work: &mut W, call: Call<W>, repeats: u32) -> f64 {
    let start = Instant::now();
    for _ in 0..repeats {
        call(work);
    }
    start.elapsed().as_secs_f64() / f64::from(repeats)
}
