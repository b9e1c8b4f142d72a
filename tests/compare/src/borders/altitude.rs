//! Reasons 8 to 10: the ends of a trip, its highest place, its climb.

use oracle::second::Second;

use super::base::{CHECK, MISSING, WILD};
use super::drive::Wish;
use super::measure::{climb, MOTORWAY, RURAL, URBAN};
use super::{Pair, Trip};

pub fn pairs() -> Vec<Pair> {
    vec![
        ends_apart("last above first by 10,000, and 10,001", 1, &[]),
        ends_apart("last below first by 10,000, and 10,001", -1, &[]),
        ends_apart(
            "ends missing, last recorded above first by 10,000, and 10,001",
            1,
            &[WILD; 4],
        ),
        ends_apart(
            "ends missing, last recorded below first by 10,000, and 10,001",
            -1,
            &[WILD; 4],
        ),
        check_seconds_apart(),
        highest(),
        highest_at_the_start(),
        highest_held(),
        highest_after_missing(),
        highest_standing(),
        climb_one_more(),
        climb_one_unit_of_distance(),
        climb_over_missing(),
    ]
}

/// "8: first and last recorded altitude differ by over 10,000", `around` before and after the trip.
fn ends_apart(what: &str, sign: i32, around: &[Second]) -> Pair {
    let trip = Trip::of(&Wish::usual());
    let last = trip.seconds.len() - 1;
    let to = trip.seconds[0].altitude + sign * 10_000;
    let whole = |altitude: i32| {
        let ended = trip.with(last, |second| second.altitude = altitude);
        ended.with_more(last + 1, around).with_more(0, around)
    };
    Pair::of_reason(8, what, whole(to), whole(to + sign))
}

/// "In states 1 and 3 every value is present": the first and the last recorded are check seconds.
fn check_seconds_apart() -> Pair {
    let trip = Trip::of(&Wish::usual());
    let check = |altitude: i32| Second {
        state: CHECK,
        altitude,
        ..trip.seconds[0]
    };
    let whole = |last: i32| {
        let begun = trip.with_more(0, &[check(15_000)]);
        begun.with_more(begun.seconds.len(), &[check(last)])
    };
    let what = "check seconds, last above first by 10,000, and 10,001";
    Pair::of_reason(8, what, whole(25_000), whole(25_001))
}

/// The usual trip, its altitudes laid so that none lies above the middle of the hold of a bin, which
/// is at `height`.
fn peaked(which: usize, height: i32) -> (Trip, usize) {
    let mut trip = Trip::of(&Wish::usual());
    let at = trip.middle(which);
    let peak = trip.seconds[at].altitude;
    for second in trip
        .seconds
        .iter_mut()
        .filter(|second| second.state != MISSING)
    {
        second.altitude = height - (second.altitude - peak).abs();
    }
    (trip, at)
}

/// "9: a corrected altitude above 130,000": 130,000, and 130,001.
fn highest() -> Pair {
    let (trip, at) = peaked(MOTORWAY, 129_000);
    let within = trip.with(at, |second| second.altitude = 130_000);
    let beyond = trip.with(at, |second| second.altitude = 130_001);
    Pair::of_reason(
        9,
        "a corrected altitude of 130,000, and 130,001",
        within,
        beyond,
    )
}

/// "The first second with an altitude .. stand[s] as recorded", at speed 0 too.
fn highest_at_the_start() -> Pair {
    let (trip, _) = peaked(MOTORWAY, 129_000);
    let within = trip.with(0, |second| second.altitude = 130_000);
    let beyond = trip.with(0, |second| second.altitude = 130_001);
    let what = "a first altitude of 130,000, and 130,001";
    Pair::of_reason(9, what, within, beyond)
}

/// "if 648d² > 25s² the corrected altitude is the previous corrected one": d 707 at a speed of
/// 3,599 is held, at 3,600 it stands.
fn highest_held() -> Pair {
    let (mut trip, at) = peaked(URBAN, 129_294);
    trip.seconds[at - 1].altitude = 129_294;
    trip.seconds[at].altitude = 130_001;
    let within = trip.with(at, |second| second.speed = 3_599);
    let beyond = trip.with(at, |second| second.speed = 3_600);
    Pair::of_reason(
        9,
        "130,001 held at a speed of 3,599, standing at 3,600",
        within,
        beyond,
    )
}

/// "The first second with an altitude, and the first after a missing one, stand as recorded."
fn highest_after_missing() -> Pair {
    let (trip, at) = peaked(RURAL, 125_000);
    let within = trip.with(at, |second| second.altitude = 130_001);
    let beyond = within.with(at - 1, |second| *second = WILD);
    Pair::of_reason(
        9,
        "130,001 held, and standing after a missing second",
        within,
        beyond,
    )
}

/// "if 648d² > 25s² the corrected altitude is the previous corrected one, else the recorded one": at
/// speed 0 a change is held, and no change stands, for 0 is not above 0.
fn highest_standing() -> Pair {
    let (trip, _) = peaked(MOTORWAY, 129_000);
    let at = 100;
    assert_eq!([0; 3], [at, at + 1, at + 2].map(|i| trip.seconds[i].speed));
    let within = trip.with(at, |second| second.altitude = 130_001);
    let beyond = within.with(at + 1, |second| second.altitude = 130_001);
    let what = "130,001 held for one standing second, standing as recorded in the second";
    Pair::of_reason(9, what, within, beyond)
}

/// The most that a tooth rises, and by how much a second; at motorway speeds that stands.
const TOOTH: i64 = 20_000;
const TOOTH_STEP: i64 = 2_000;

/// Rises and falls that climb so much in all, and the place of the last peak.
fn teeth(climb: i64) -> (Vec<i64>, usize) {
    let mut line = vec![0];
    let mut left = climb;
    let mut peak = 0;
    while left > 0 {
        let top = left.min(TOOTH);
        let steps = (top + TOOTH_STEP - 1) / TOOTH_STEP;
        line.extend((1..=steps).map(|step| top.min(step * TOOTH_STEP)));
        peak = line.len() - 1;
        line.extend((0..steps).rev().map(|step| step * TOOTH_STEP));
        left -= top;
    }
    (line, peak)
}

/// The drive wished for with teeth of altitude in its motorway hold that bring its climb to
/// `wanted`, and the second at the peak of the last tooth.
fn climbing(wish: &Wish, wanted: i64) -> (Trip, usize) {
    let mut trip = Trip::of(wish);
    let (first, length) = trip.hold(MOTORWAY);
    let floor = trip.seconds[first].altitude;
    for second in &mut trip.seconds[first..first + length] {
        second.altitude = floor;
    }
    let (line, peak) = teeth(wanted - climb(&trip.seconds));
    assert!(
        line.len() < length,
        "{} seconds of teeth in {length}",
        line.len()
    );
    for (second, above) in trip.seconds[first..].iter_mut().zip(line) {
        second.altitude += above as i32;
    }
    (trip, first + peak)
}

/// "10: 300 times climb not below total S": S 24,000,000, climb 79,999 and 80,000.
fn climb_one_more() -> Pair {
    let (within, peak) = climbing(&Wish::usual(), 79_999);
    let beyond = within.with(peak, |second| second.altitude += 1);
    Pair::of_reason(
        10,
        "climb 79,999, and 80,000, of S 24,000,000",
        within,
        beyond,
    )
}

/// "10: 300 times climb not below total S": climb 80,000, S 24,000,001 and 24,000,000.
fn climb_one_unit_of_distance() -> Pair {
    let mut wish = Wish::usual();
    wish.distance[URBAN] += 1;
    let (within, _) = climbing(&wish, 80_000);
    let beyond = within.with_distance(URBAN, -1);
    Pair::of_reason(
        10,
        "climb 80,000 of S 24,000,001, and 24,000,000",
        within,
        beyond,
    )
}

/// "Climb is the sum of upward steps .., missing seconds passed over": the step before the last peak
/// is over missing seconds.
fn climb_over_missing() -> Pair {
    let (trip, peak) = climbing(&Wish::usual(), 79_999);
    let within = trip.with_more(peak, &[WILD; 3]);
    let beyond = within.with(peak + 3, |second| second.altitude += 1);
    let what = "climb 79,999, and 80,000, the last step over missing seconds";
    Pair::of_reason(10, what, within, beyond)
}
