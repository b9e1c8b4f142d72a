//! Times two ways of one work by turns, and prints the best of each and their ratio.

use std::sync::atomic::{AtomicUsize, Ordering};
use std::time::{Duration, Instant};

use crate::progress;

/// How often each way is timed; the best time counts, so that other load falls out.
const TURNS: usize = 25;

/// How many works are timed, so that the progress can say of how many.
pub const WORKS: usize = 20;

/// Works whose timing has begun.
static BEGUN: AtomicUsize = AtomicUsize::new(0);

/// What one work took, in ms: the library's way and the other.
#[derive(Clone, Copy)]
pub struct Took {
    pub ours: f64,
    pub theirs: f64,
}

impl Took {
    /// What this work took more than another.
    pub fn less(self, other: Took) -> Took {
        Took {
            ours: self.ours - other.ours,
            theirs: self.theirs - other.theirs,
        }
    }
}

/// How a work grows from 1,024 to 8,192 seconds.
pub struct Growth {
    pub work: &'static str,
    pub small: Took,
    pub large: Took,
}

/// Times and prints.
pub fn against(work: &str, ours: impl FnMut() -> u64, theirs: impl FnMut() -> u64) -> Took {
    let took = best(work, ours, theirs);
    print(work, took);
    took
}

/// Runs `ours` and `theirs` by turns. Both give a number made of all their results, which must
/// agree: the work cannot be left out.
pub fn best(work: &str, mut ours: impl FnMut() -> u64, mut theirs: impl FnMut() -> u64) -> Took {
    let number = BEGUN.fetch_add(1, Ordering::Relaxed) + 1;
    progress::tell(&format!("bench: work {number} of {WORKS}: {work}"));
    let mut best = [Duration::MAX; 2];
    for _ in 0..TURNS {
        let (a, took_ours) = timed(&mut ours);
        let (b, took_theirs) = timed(&mut theirs);
        assert_eq!(a, b, "{work}: the two ways differ");
        best = [best[0].min(took_ours), best[1].min(took_theirs)];
    }
    let [ours, theirs] = best.map(|time| time.as_secs_f64() * 1e3);
    Took { ours, theirs }
}

/// How many works were timed.
pub fn begun() -> usize {
    BEGUN.load(Ordering::Relaxed)
}

pub fn print(work: &str, took: Took) {
    let Took { ours, theirs } = took;
    println!(
        "{work:<48} {ours:>7.3} ms {theirs:>7.3} ms {:>7.2}",
        ours / theirs
    );
}

pub fn print_growth(growth: &Growth) {
    let Growth { work, small, large } = growth;
    println!(
        "{work:<48} {:>10.1} {:>10.1}",
        large.ours / small.ours,
        large.theirs / small.theirs
    );
}

fn timed(work: &mut impl FnMut() -> u64) -> (u64, Duration) {
    let start = Instant::now();
    let result = std::hint::black_box(work());
    (result, start.elapsed())
}
