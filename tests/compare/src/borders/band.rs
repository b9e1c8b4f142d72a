//! Reason 15 and the ends of the band around the curve.
//!
//! Each trip has six windows, two of each class. The curve is laid so that those of the other
//! classes are inside and one window, the target, stands at an end of its band: its mass is the last
//! whole one within the end, which is a fraction.

use oracle::Plan;

use super::few_windows::{
    distance, falling_drive, kept, last_at_mean, with_slower_motorway, with_windows, Window, MASS,
    REFERENCE,
};
use super::measure::{MOTORWAY, NAMES, RURAL, URBAN};
use super::{Pair, Trip};
use crate::ends::{first_mass_at, last_mass_at};

/// "lower tolerance and upper tolerances", percent.
const TOLERANCE: i64 = 10;

pub fn pairs() -> Vec<Pair> {
    let mut pairs = Vec::new();
    for fellow_inside in [false, true] {
        for which in [URBAN, RURAL, MOTORWAY] {
            pairs.push(pair(which, End::Lower, fellow_inside));
            pairs.push(pair(which, End::Upper, fellow_inside));
        }
    }
    pairs.push(on_falling_curve());
    for end in [End::Lower, End::Upper] {
        pairs.push(exactly_at_end(end));
        pairs.push(beside_the_turn(56_663, "56,663 and 56,664", end));
        pairs.push(beside_the_turn(56_664, "56,664 and 56,665", end));
    }
    pairs.into_iter().map(Pair::of_the_band).collect()
}

/// The ends of a band.
#[derive(Clone, Copy, PartialEq, Eq)]
enum End {
    Lower,
    Upper,
}

impl End {
    fn name(self) -> &'static str {
        match self {
            End::Lower => "lower",
            End::Upper => "upper",
        }
    }

    /// The percentage of the curve that is this end.
    fn percent(self) -> i64 {
        match self {
            End::Lower => 100 - TOLERANCE,
            End::Upper => 100 + TOLERANCE,
        }
    }

    /// The whole masses on either side of this end, one and the same where it is whole: the first at
    /// least at it and the last at most at it.
    fn masses(self, plan: &Plan, Extent { s, n }: Extent) -> [i64; 2] {
        let [percent, s, n] = [self.percent(), s, n].map(i128::from);
        [first_mass_at, last_mass_at].map(|mass_at| mass_at(plan, percent, s, n) as i64)
    }

    /// The last whole mass within this end.
    fn last_mass(self, plan: &Plan, at: Extent) -> i64 {
        let [at_least, at_most] = self.masses(plan, at);
        match self {
            End::Lower => at_least,
            End::Upper => at_most,
        }
    }
}

/// A window by S and n.
#[derive(Clone, Copy, Debug)]
struct Extent {
    s: i64,
    n: i64,
}

impl Extent {
    /// The whole part of its mean, near which the curve is laid.
    fn v(self) -> i64 {
        10 * self.s / self.n
    }

    /// The whole part of its figure, of the usual mass.
    fn w(self) -> i64 {
        360_000 * MASS / self.s
    }
}

/// Two windows of each class: motorway, rural, urban; the mean of the second rural one is at least
/// this.
fn six_windows(trip: &Trip, second_rural: i64) -> Vec<Window> {
    let ends = [
        450,
        510,
        last_at_mean(trip, 2, 7_500),
        last_at_mean(trip, 3, second_rural),
        last_at_mean(trip, 4, 4_150),
        last_at_mean(trip, 5, 3_800),
    ];
    ends.map(|last| Window { last, mass: MASS }).into()
}

/// A plan whose curve passes close to three points, a v and a c for urban, rural and motorway.
fn plan_through(points: [(i64, i64); 3]) -> Plan {
    let [(urban_v, urban), (rural_v, rural), (motorway_v, motorway)] = points;
    let rise = (motorway - rural) * 35_333 / (motorway_v - rural_v);
    let e2 = rural - rise * (rural_v - 56_664) / 35_333;
    let e3 = e2 + rise;
    let e1 = e2 - (e2 - urban) * 37_782 / (56_664 - urban_v);
    let in_range = |e: i64| {
        assert!(
            (1..=2_000_000).contains(&e),
            "a curve value of {e} through {points:?}"
        );
        e as u32
    };
    Plan {
        reference: REFERENCE as u32,
        e1: in_range(e1),
        e2: in_range(e2),
        e3: in_range(e3),
        lower: TOLERANCE as u8,
        upper: [60, 70, 80],
    }
}

/// The place of the target among the six windows, so that its fellow is inside or outside as
/// wanted. The second window of a class is lower in its band than the first; a rural one is higher,
/// for there the curve falls faster than the figure.
fn place_of_target(which: usize, end: End, fellow_inside: bool) -> usize {
    let is_lower_one = (end == End::Lower) == fellow_inside;
    let is_second = is_lower_one != (which == RURAL);
    2 * (MOTORWAY - which) + usize::from(is_second)
}

/// The plan for these windows: the target at an end of its band, the other classes inside.
fn plan_for(extents: &[Extent], target: usize, end: End) -> Plan {
    let points = [4, 2, 0].map(|first| {
        let of_target = target / 2 == first / 2;
        let extent = extents[if of_target { target } else { first }];
        let percent = if of_target { end.percent() } else { 107 };
        (extent.v(), extent.w() * 100 / percent)
    });
    let mut plan = plan_through(points);
    plan.upper[MOTORWAY - target / 2] = TOLERANCE as u8;
    plan
}

/// A plan whose curve falls to the target, a motorway window at the upper end of its band.
fn falling_plan_for(extents: &[Extent], target: usize, end: End) -> Plan {
    let v = extents[target].v();
    let c = extents[target].w() * 100 / end.percent();
    let (e1, e2) = (400_000, 300_000);
    let e3 = e2 - (e2 - c) * 35_333 / (v - 56_664);
    Plan {
        reference: REFERENCE as u32,
        e1: e1 as u32,
        e2: e2 as u32,
        e3: e3 as u32,
        lower: 100,
        upper: [60, 70, TOLERANCE as u8],
    }
}

/// What S is to be a multiple of, and c, so that an end of the band is a whole mass.
const WHOLE_S: i64 = 36_000;
const WHOLE_C: i64 = 100;

/// A plan whose first line is flat, so that c is whole; the target is an urban window.
fn flat_plan_for(extents: &[Extent], target: usize, end: End) -> Plan {
    let c = extents[target].w() * 100 / end.percent();
    let e2 = (c / WHOLE_C + 1) * WHOLE_C;
    let motorway = extents[0].w() * 100 / 107;
    let e3 = e2 + (motorway - e2) * 35_333 / (extents[0].v() - 56_664);
    Plan {
        reference: REFERENCE as u32,
        e1: e2 as u32,
        e2: e2 as u32,
        e3: e3 as u32,
        lower: TOLERANCE as u8,
        upper: [TOLERANCE as u8, 70, 80],
    }
}

type PlanFor = fn(&[Extent], usize, End) -> Plan;

/// "Inside: 100w at least (100-lower)c and at most (100+upper)c": the target at the end of its band,
/// and one mg beyond.
fn at_end(target: usize, end: End, plan_for: PlanFor) -> (Trip, Trip) {
    let trip = falling_drive();
    let windows = six_windows(&trip, 5_900);
    with_target(trip, windows, target, end, plan_for)
}

/// The same of a drive with these windows.
fn with_target(
    mut trip: Trip,
    mut windows: Vec<Window>,
    target: usize,
    end: End,
    plan_for: PlanFor,
) -> (Trip, Trip) {
    let extents: Vec<Extent> = (0..windows.len())
        .map(|first| extent(&trip, first, windows[first].last))
        .collect();
    trip.plan = plan_for(&extents, target, end);
    windows[target].mass = end.last_mass(&trip.plan, extents[target]);
    let within = with_windows(&trip, &windows);
    let last = kept(&trip)[windows[target].last];
    let beyond = within.with(last, |second| match end {
        End::Lower => second.co2 -= 1,
        End::Upper => second.co2 += 1,
    });
    (within, beyond)
}

fn extent(trip: &Trip, first: usize, last: usize) -> Extent {
    Extent {
        s: distance(trip, first, last),
        n: (last + 1 - first) as i64,
    }
}

/// With its fellow inside no reason hangs on the target; with its fellow outside that is "15: a class
/// with windows, under half inside".
fn pair(which: usize, end: End, fellow_inside: bool) -> Pair {
    let target = place_of_target(which, end, fellow_inside);
    let (within, beyond) = at_end(target, end, plan_for);
    let (class, end) = (NAMES[which], end.name());
    if fellow_inside {
        let name = format!("band: {class}, at the {end} end, and one mg beyond");
        Pair::of_figure(&name, within, beyond)
    } else {
        let what = format!("{class}, half inside by the {end} end, and one window fewer");
        Pair::of_reason(15, &what, within, beyond)
    }
}

/// "the unrounded line", where it falls.
fn on_falling_curve() -> Pair {
    let (within, beyond) = at_end(0, End::Upper, falling_plan_for);
    let name = "band: motorway, at the upper end on a falling curve, and one mg beyond";
    Pair::of_figure(name, within, beyond)
}

/// "at least", "at most": the figure of the target, an urban window, is exactly at the end.
fn exactly_at_end(end: End) -> Pair {
    let target = place_of_target(URBAN, end, false);
    let trip = falling_drive();
    let windows = six_windows(&trip, 5_900);
    let last = windows[target].last;
    let trip = with_slower_motorway(&trip, extent(&trip, target, last).s % WHOLE_S);
    let at = extent(&trip, target, last);
    let (within, beyond) = with_target(trip, windows, target, end, flat_plan_for);
    let [at_least, at_most] = end.masses(&within.plan, at);
    assert_eq!(at_least, at_most, "a whole mass");
    let end = end.name();
    let what = format!("urban, half inside exactly at the {end} end, and one window fewer");
    Pair::of_reason(15, &what, within, beyond)
}

/// "the first up to 56,664 itself": the target, the second rural window, has a mean between two whole
/// numbers, one of which is the turn.
fn beside_the_turn(below: i64, between: &str, end: End) -> Pair {
    let target = 3;
    let trip = falling_drive();
    let windows = six_windows(&trip, 5_670);
    let Extent { s, n } = extent(&trip, target, windows[target].last);
    let wanted = (2 * below + 1) * n / 20;
    let trip = with_slower_motorway(&trip, s - wanted);
    let (within, beyond) = with_target(trip, windows, target, end, plan_for);
    let what = format!("rural, a mean between {between}");
    match end {
        End::Upper => {
            let name = format!("band: {what}, at the upper end, and one mg beyond");
            Pair::of_figure(&name, within, beyond)
        }
        End::Lower => {
            let what = format!("{what}, half inside by the lower end, and one window fewer");
            Pair::of_reason(15, &what, within, beyond)
        }
    }
}
