//! Windows at the ends of their band, by arithmetic of their own: no rule of the independent program
//! is asked.

use oracle::Plan;

use crate::case::WINDOW_MOST;
use crate::random::Random;

/// A kilometre times the hundred of the percentages.
const KILOMETRE_TIMES_100: i128 = 36_000_000;

/// The turn of the curve, and how far its lines reach on either side of it.
const TURN: i128 = 56_664;
const BEFORE_TURN: i128 = 37_782;
const AFTER_TURN: i128 = 35_333;

/// The class of a mean of 10S/n; of one that has none the last.
fn class(s: i128, n: i128) -> usize {
    usize::from(10 * s >= 45_000 * n) + usize::from(10 * s >= 80_000 * n)
}

/// Whether a mean of 10S/n is on the first line: "the first up to 56,664 itself".
fn is_on_first_line(s: i128, n: i128) -> bool {
    10 * s <= TURN * n
}

/// The mass, a fraction, at which 100w is this percentage of c: both lines are E2 and a rise from the
/// turn.
fn mass_at(plan: &Plan, percent: i128, s: i128, n: i128) -> (i128, i128) {
    let [e1, e2, e3] = plan.curve().map(i128::from);
    let (rise, over) = if is_on_first_line(s, n) {
        (e2 - e1, BEFORE_TURN)
    } else {
        (e3 - e2, AFTER_TURN)
    };
    let c_times = e2 * over * n + rise * (10 * s - TURN * n);
    (percent * c_times * s, KILOMETRE_TIMES_100 * over * n)
}

/// The first whole mass at which 100w is at least this percentage of c.
pub fn first_mass_at(plan: &Plan, percent: i128, s: i128, n: i128) -> i128 {
    let (numerator, denominator) = mass_at(plan, percent, s, n);
    -(-numerator).div_euclid(denominator)
}

/// The last whole mass at which 100w is at most this percentage of c.
pub fn last_mass_at(plan: &Plan, percent: i128, s: i128, n: i128) -> i128 {
    let (numerator, denominator) = mass_at(plan, percent, s, n);
    numerator.div_euclid(denominator)
}

/// The percentages of c that are the ends of the band of a window.
pub fn percentages(plan: &Plan, s: i128, n: i128) -> [i128; 2] {
    let upper = plan.upper[class(s, n)];
    [100 - i128::from(plan.lower), 100 + i128::from(upper)]
}

/// A plan with this curve, for windows of any mass.
pub fn plan_with([e1, e2, e3]: [u32; 3], lower: u8, upper: [u8; 3]) -> Plan {
    Plan {
        reference: 1,
        e1,
        e2,
        e3,
        lower,
        upper,
    }
}

/// A window whose figure is exactly at an end of its band, and so inside.
pub struct OnAnEnd {
    pub plan: Plan,
    pub s: u32,
    pub m: u32,
    pub n: usize,
    /// One mg further: the mass of a window that is not inside.
    pub beyond: u32,
}

/// What such a window is made by. With K = 36,000,000 / percent, S = K `parts` `times` and n = `parts`²
/// `length`, where `length` divides 10 K, the end is at m = `parts` `times` c, and that is whole though
/// mean, curve and figure are fractions of `parts`.
#[derive(Clone, Copy, Debug)]
pub struct Recipe {
    /// Of c; it divides 36,000,000.
    pub percent: i128,
    pub parts: i128,
    pub length: i128,
    pub times: i128,
    /// E2, and the curve's rise for each 0.001 km/h on the window's line.
    pub e2: i128,
    pub rise: i128,
    /// The curve value that the window's line does not reach.
    pub other: u32,
    /// The tolerance that is not at this end.
    pub tolerance: u8,
}

impl Recipe {
    /// The window; none where a value of it is out of range.
    pub fn window(&self) -> Option<OnAnEnd> {
        let Recipe { percent, parts, .. } = *self;
        let k = KILOMETRE_TIMES_100 / percent;
        let (s, n) = (k * parts * self.times, parts * parts * self.length);
        let too_long = n > i128::from(WINDOW_MOST);
        if too_long || 10 * k % self.length != 0 || 10 * s >= 145_000 * n {
            return None;
        }
        let plan = self.plan(s, n)?;
        let (numerator, denominator) = mass_at(&plan, percent, s, n);
        assert_eq!(numerator % denominator, 0, "a whole mass by {self:?}");
        let in_range = |sum: i128| {
            u32::try_from(sum)
                .ok()
                .filter(|&sum| sum > 0 && sum < u32::MAX)
        };
        let (s, m) = (in_range(s)?, in_range(numerator / denominator)?);
        Some(OnAnEnd {
            plan,
            s,
            m,
            n: n as usize,
            beyond: if percent < 100 { m - 1 } else { m + 1 },
        })
    }

    fn plan(&self, s: i128, n: i128) -> Option<Plan> {
        let in_range = |e: i128| (1..=2_000_000).contains(&e).then_some(e as u32);
        let (e1, e3) = if is_on_first_line(s, n) {
            (in_range(self.e2 - BEFORE_TURN * self.rise)?, self.other)
        } else {
            (self.other, in_range(self.e2 + AFTER_TURN * self.rise)?)
        };
        let end = (self.percent - 100).unsigned_abs() as u8;
        let (lower, upper) = if self.percent < 100 {
            (end, self.tolerance)
        } else {
            (self.tolerance, end)
        };
        Some(plan_with([e1, in_range(self.e2)?, e3], lower, [upper; 3]))
    }

    /// A recipe of any numbers, of which not every one makes a window.
    pub fn any(random: &mut Random) -> Recipe {
        let percents = [1, 50, 75, 80, 90, 100, 120, 125, 150, 180, 200];
        let primes = [1, 7, 11, 13, 17, 19, 23, 29];
        Recipe {
            percent: percents[random.below(percents.len() as u64) as usize],
            parts: primes[random.below(primes.len() as u64) as usize],
            length: 1 + i128::from(random.below(700)),
            times: 1 + i128::from(random.below(8)),
            e2: 1 + i128::from(random.below(2_000_000)),
            rise: i128::from(random.below(105)) - 52,
            other: 1 + random.below(2_000_000) as u32,
            tolerance: [0, 25, 100][random.below(3) as usize],
        }
    }
}
