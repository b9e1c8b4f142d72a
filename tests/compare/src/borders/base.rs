//! From speeds to a trip: states, altitudes and masses, some seconds missing and some of checks.

use oracle::second::Second;
use oracle::Plan;

use super::drive::Wish;
use super::measure::bin;
use super::Trip;

pub const MEASURED: u8 = 1;
pub const MISSING: u8 = 2;
pub const CHECK: u8 = 3;

/// "The values of a missing second are ignored and not range-checked."
pub const WILD: Second = Second {
    state: MISSING,
    speed: 65_535,
    altitude: i32::MIN,
    co2: u32::MAX,
    nox: u32::MAX,
};

/// Seconds missing in the middle of the hold of each bin; one of zeros follows them, so that the
/// difference of speeds would be above 72 on both sides of the gap.
const MISSING_IN_HOLD: [usize; 3] = [4, 6, 3];
/// Check seconds in the hold of each bin.
const CHECKS_IN_HOLD: usize = 6;

/// A curve and tolerances that the usual masses lie well inside.
pub fn usual_plan() -> Plan {
    Plan {
        reference: 1_500_000,
        e1: 390_000,
        e2: 380_000,
        e3: 365_000,
        lower: 25,
        upper: [45, 40, 40],
    }
}

impl Trip {
    /// The drive wished for, with the usual plan, masses, altitudes, missing and check seconds.
    pub fn of(wish: &Wish) -> Trip {
        let speeds = wish.speeds();
        let seconds = speeds.iter().enumerate().map(|(i, &speed)| Second {
            state: MEASURED,
            speed,
            altitude: 20_000 + hills(i),
            co2: u32::from(speed) + 300,
            nox: 40 + (i % 3_000) as u32,
        });
        let mut trip = Trip {
            plan: usual_plan(),
            seconds: seconds.collect(),
        };
        for which in 0..3 {
            trip.spoil_hold(which);
        }
        trip
    }

    /// The longest stretch of measured seconds at one speed of a bin, standing left out: first
    /// index and length.
    pub fn hold(&self, which: usize) -> (usize, usize) {
        let mut longest = (0, 0);
        let mut first = 0;
        for i in 0..self.seconds.len() {
            let alike = |a: &Second, b: &Second| a.state == b.state && a.speed == b.speed;
            if i > 0 && !alike(&self.seconds[i], &self.seconds[i - 1]) {
                first = i;
            }
            let second = &self.seconds[i];
            let counts = second.state == MEASURED && second.speed >= 100;
            if counts && bin(second.speed) == which && i + 1 - first > longest.1 {
                longest = (first, i + 1 - first);
            }
        }
        longest
    }

    /// The middle of the longest hold of a bin: a second whose speed may change by a little.
    pub fn middle(&self, which: usize) -> usize {
        let (first, length) = self.hold(which);
        assert!(length >= 8, "a hold of {length} seconds in bin {which}");
        first + length / 2
    }

    /// Puts missing seconds into a hold, beside them an altitude that is held, and check seconds.
    fn spoil_hold(&mut self, which: usize) {
        let (first, length) = self.hold(which);
        let checks = first + length / 6;
        for second in &mut self.seconds[checks..checks + CHECKS_IN_HOLD.min(length / 6)] {
            second.state = CHECK;
        }
        let leap = first + length / 3;
        self.seconds[leap].altitude += 9_000;
        let missing = first + length / 2;
        let mut gap = vec![WILD; MISSING_IN_HOLD[which]];
        gap.push(Second::missing());
        self.seconds.splice(missing..missing, gap);
    }

    /// The speeds of all seconds that are not missing.
    pub fn recorded_speeds(&self) -> Vec<u16> {
        let recorded = self.seconds.iter().filter(|second| second.state != MISSING);
        recorded.map(|second| second.speed).collect()
    }

    /// The same trip with one second changed.
    pub fn with(&self, index: usize, change: impl Fn(&mut Second)) -> Trip {
        let mut changed = self.clone();
        change(&mut changed.seconds[index]);
        changed
    }

    /// The same trip with one speed of the hold of a bin changed by a little.
    pub fn with_distance(&self, which: usize, by: i32) -> Trip {
        let change = |second: &mut Second| second.speed = (i32::from(second.speed) + by) as u16;
        self.with(self.middle(which), change)
    }

    /// The same trip with speeds put into the hold of a bin, each given by what it lies below the
    /// hold; the place of the second that follows them.
    pub fn with_speeds_in_hold(&self, which: usize, below: &[u16]) -> (Trip, usize) {
        let at = self.middle(which);
        let hold = self.seconds[at].speed;
        let speeds: Vec<u16> = below.iter().map(|below| hold - below).collect();
        (self.with_speeds(at, &speeds), at + speeds.len())
    }

    /// The same trip with so many more seconds that have a D above 72, a D of 80, in the hold of a
    /// bin.
    pub fn with_rises(&self, which: usize, count: u16) -> Trip {
        let below: Vec<u16> = (1..=count + 1).rev().map(|step| 40 * step).collect();
        let below = if count == 0 { Vec::new() } else { below };
        self.with_speeds_in_hold(which, &below).0
    }

    /// Two trips with one second more in the hold of a bin that has a D of 72, and of 73; the speed
    /// of the second after it is one more.
    pub fn at_d_72_and_73(&self, which: usize) -> (Trip, Trip) {
        let (at_72, after) = self.with_speeds_in_hold(which, &[72, 72, 36]);
        let at_73 = at_72.with(after, |second| second.speed += 1);
        (at_72, at_73)
    }

    /// The place after the last second at a speed.
    pub fn after_last(&self, speed: u16) -> usize {
        let at = |second: &Second| second.state == MEASURED && second.speed == speed;
        1 + self
            .seconds
            .iter()
            .rposition(at)
            .expect("a second at this speed")
    }

    /// The same trip with speeds put in; all else is as at the place.
    pub fn with_speeds(&self, index: usize, speeds: &[u16]) -> Trip {
        let like = self.seconds[index];
        let put: Vec<Second> = speeds
            .iter()
            .map(|&speed| Second { speed, ..like })
            .collect();
        self.with_more(index, &put)
    }

    /// The same trip with seconds put in.
    pub fn with_more(&self, index: usize, more: &[Second]) -> Trip {
        let mut longer = self.clone();
        longer.seconds.splice(index..index, more.iter().copied());
        longer
    }
}

/// Up 4 cm a second for 500 seconds, then down again.
fn hills(second: usize) -> i32 {
    let second = second % 1_000;
    4 * second.min(1_000 - second) as i32
}
