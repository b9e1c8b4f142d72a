//! What the newest release moved: the same trips answered by it and by the release before, by the
//! independent program alone.

use oracle::rules::NEWEST;
use oracle::windows::WindowFigures;
use oracle::{reasons, trip, Rules};

use crate::borders::{pairs, Trip};
use crate::lanes::Lanes;
use crate::progress;
use crate::random::Random;
use crate::trips;

const REALISTIC: usize = 1_000;

/// A trip by one release.
struct Answered {
    windows: Vec<WindowFigures>,
    verdict: u16,
}

fn answered(rules: &Rules, judged: &Trip) -> Answered {
    let lanes = Lanes::of(&judged.seconds);
    let windows = trip::trip_windows(rules, &judged.plan, lanes.trip_on_paper());
    let figures = trip::figures_by_windows(rules, lanes.trip_on_paper(), &windows);
    let verdict = reasons::reasons(rules, &figures);
    Answered { windows, verdict }
}

/// What came and what went.
#[derive(Clone, Copy, Default)]
struct Moved {
    came: u64,
    went: u64,
}

impl Moved {
    fn count(&mut self, before: bool, after: bool) {
        self.came += u64::from(!before && after);
        self.went += u64::from(before && !after);
    }
}

/// What was counted over a set of trips.
#[derive(Default)]
struct Counted {
    trips: u64,
    windows: u64,
    inside: Moved,
    other_verdict: u64,
    valid: Moved,
    reasons: [Moved; 16],
}

impl Counted {
    fn count(&mut self, releases: &[Rules; 2], judged: &Trip) {
        let [before, after] = releases.each_ref().map(|rules| answered(rules, judged));
        self.trips += 1;
        self.windows += after.windows.len() as u64;
        assert_eq!(
            before.windows.len(),
            after.windows.len(),
            "both releases find the same windows"
        );
        for (before, after) in before.windows.iter().zip(&after.windows) {
            self.inside.count(before.inside, after.inside);
        }
        let [before, after] = [before.verdict, after.verdict];
        self.other_verdict += u64::from(before != after);
        self.valid.count(before == 0, after == 0);
        for (bit, reason) in self.reasons.iter_mut().enumerate() {
            let is_set = |verdict: u16| reasons::has_reason(verdict, 1 << bit);
            reason.count(is_set(before), is_set(after));
        }
    }

    fn print(&self, of: &str) {
        println!("{of}: {} trips, {} windows", self.trips, self.windows);
        let Moved { came, went } = self.inside;
        println!("  windows: {came} from outside to inside, {went} from inside to outside");
        println!("  trips with another verdict: {}", self.other_verdict);
        let Moved { came, went } = self.valid;
        println!("  trips: {came} became valid, {went} are no longer valid");
        let moved = |reason: &(usize, &Moved)| reason.1.came + reason.1.went > 0;
        let mut reasons = self.reasons.iter().enumerate().filter(moved).peekable();
        if reasons.peek().is_none() {
            println!("  no reason was gained or lost");
        }
        for (reason, Moved { came, went }) in reasons {
            println!("  reason {reason}: {came} trips gained it, {went} lost it");
        }
    }
}

/// Prints what moved on realistic trips, on the same with narrower bands, whose ends pass through more
/// of their windows, and on the trips on either side of each border.
pub fn print(seed: u64) {
    let numbers = [NEWEST - 1, NEWEST];
    println!("release {} against release {}", numbers[0], numbers[1]);
    let releases = numbers.map(|number| oracle::release(number).expect("a release before"));
    let [mut random, mut tolerances] = [52, 57].map(|part| Random::new(seed ^ part));
    let [mut as_planned, mut narrow, mut on_borders] = [(); 3].map(|()| Counted::default());
    for number in 1..=REALISTIC {
        progress::tell(&format!("trip {number} of {REALISTIC}"));
        let (plan, seconds) = trips::realistic(&mut random);
        let mut judged = Trip { plan, seconds };
        as_planned.count(&releases, &judged);
        let mut tolerance = || tolerances.below(25) as u8;
        judged.plan.lower = tolerance();
        judged.plan.upper = [0; 3].map(|_: u8| tolerance());
        narrow.count(&releases, &judged);
    }
    for pair in pairs() {
        on_borders.count(&releases, &pair.within);
        on_borders.count(&releases, &pair.beyond);
    }
    as_planned.print(&format!("realistic trips (seed {seed})"));
    narrow.print("the same, tolerances of any percentage below 25");
    on_borders.print("trips on either side of each border");
}
