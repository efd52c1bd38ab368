//! Times of two sides, taken in turn.
use std::hint::black_box;
use std::time::{Duration, Instant};

/// What a call came to, small enough to cost nothing: both sides must have the same.
pub type Tally = Option<(u64, u64)>;

/// Runs so many calls: the time that they took, and what the last came to.
pub type Side = Box<dyn FnMut(usize) -> (Duration, Tally)>;

/// How many calls of a prepared side are timed together at most, and how many bytes they are lent: of packets of the usual size
/// the lines that are touched fit in the first cache.
const MOST_CALLS: usize = 128;
const MOST_BYTES: usize = 160_000;
/// How long a sample of a side without preparation takes, at least.
const LONG_ENOUGH: Duration = Duration::from_micros(60);

/// A side whose calls need nothing made anew.
pub fn plain(mut call: impl FnMut() -> Tally + 'static) -> Side {
    Box::new(move |calls| {
        let mut tally = None;
        let start = Instant::now();
        for _ in 0..calls {
            tally = black_box(call());
        }
        (start.elapsed(), tally)
    })
}

/// A side whose every call takes a state of its own, made before the clock starts and dropped after it stops.
pub fn prepared<S>(make: impl Fn() -> S + 'static, mut call: impl FnMut(&mut S) -> Tally + 'static) -> Side {
    Box::new(move |calls| {
        let mut states: Vec<S> = (0..calls).map(|_| make()).collect();
        let mut tally = None;
        let start = Instant::now();
        for state in &mut states {
            tally = black_box(call(black_box(state)));
        }
        (start.elapsed(), tally)
    })
}

/// The sides of a row, ours and the Rust's or ours alone, with the times of a call so far, in nanoseconds.
pub struct Sides {
    sides: Vec<Side>,
    calls: usize,
    clock: Duration,
    times: Vec<Vec<f64>>,
}

/// The least and the median time of a call, in nanoseconds.
#[derive(Clone, Copy)]
pub struct Times {
    pub least: f64,
    pub median: f64,
}

impl Sides {
    /// Sides whose calls need nothing made anew. An error where they do not agree, or refuse.
    pub fn plain(sides: impl IntoIterator<Item = Side>) -> Result<Self, String> {
        let mut all = Self::new(sides.into_iter().collect(), 1)?;
        while all.sides.iter_mut().any(|side| side(all.calls).0 < LONG_ENOUGH) {
            all.calls *= 2;
        }
        Ok(all)
    }

    /// Prepared sides, of calls that are lent so many bytes each.
    pub fn prepared(sides: impl IntoIterator<Item = Side>, bytes: usize) -> Result<Self, String> {
        Self::new(sides.into_iter().collect(), (MOST_BYTES / bytes.max(1)).clamp(1, MOST_CALLS))
    }

    /// Asks each side once.
    fn new(mut sides: Vec<Side>, calls: usize) -> Result<Self, String> {
        let said: Vec<Tally> = sides.iter_mut().map(|side| side(1).1).collect();
        if said.iter().any(|tally| tally.is_none() || *tally != said[0]) {
            return Err(format!("ours and the Rust: {said:?}"));
        }
        let times = sides.iter().map(|_| Vec::new()).collect();
        Ok(Self { sides, calls, clock: clock_cost(), times })
    }

    /// Takes so many samples of each side, in turn.
    pub fn sample(&mut self, samples: usize) {
        for i in 0..samples {
            let count = self.sides.len();
            for side in (0..count).map(|k| (i + k) % count) {
                let took = self.sides[side](self.calls).0.saturating_sub(self.clock);
                self.times[side].push(took.as_nanos() as f64 / self.calls as f64);
            }
        }
    }

    /// Those of each side.
    pub fn times(&self) -> Vec<Times> {
        let of = |times: &Vec<f64>| {
            let mut sorted = times.clone();
            sorted.sort_by(f64::total_cmp);
            Times { least: sorted[0], median: sorted[sorted.len() / 2] }
        };
        self.times.iter().map(of).collect()
    }

    /// Ours by the Rust's, of the least times and of the medians; None where the Rust has no side.
    pub fn ratios(&self) -> Option<[f64; 2]> {
        let [ours, rust] = self.times().try_into().ok()?;
        Some([ours.least / rust.least, ours.median / rust.median])
    }
}

/// What two readings of the clock cost at least.
fn clock_cost() -> Duration {
    (0..1000).map(|_| Instant::now().elapsed()).min().unwrap_or_default()
}
