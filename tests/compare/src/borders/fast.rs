//! Reasons 6 and 7: fast driving.

use super::base::MISSING;
use super::drive::{Waves, Wish};
use super::measure::MOTORWAY;
use super::{Pair, Trip};

pub fn pairs() -> Vec<Pair> {
    vec![fewest_above_10_000(), fastest(), most_above_14_500()]
}

/// "6: fewer than 300 seconds above 10,000", the last of them at 10,001, and 10,000.
fn fewest_above_10_000() -> Pair {
    let mut wish = Wish::usual();
    wish.waves[MOTORWAY] = Waves {
        count: 6,
        low: 9_100,
        high: 10_900,
        high_seconds: 18,
        ..wish.waves[MOTORWAY]
    };
    wish.distance[MOTORWAY] = 9_000_000;
    wish.seconds[MOTORWAY] = 920;
    let trip = Trip::of(&wish);
    let recorded = trip.seconds.iter().filter(|second| second.state != MISSING);
    let above = recorded.filter(|second| second.speed > 10_000).count();
    let at = trip.after_last(10_900);
    let more = [vec![10_900; 299 - above], vec![10_001, 10_000, 10_000]].concat();
    let within = trip.with_speeds(at, &more);
    let beyond = within.with(at + 299 - above, |second| second.speed = 10_000);
    let what = "300 seconds above 10,000 by one at 10,001, and 10,000";
    Pair::of_reason(6, what, within, beyond)
}

/// "7: a speed above 16,000": 16,000, and 16,001.
fn fastest() -> Pair {
    let trip = Trip::of(&Wish::usual());
    let at = trip.after_last(12_600);
    let mut speeds: Vec<u16> = (1..=17).map(|step| 12_600 + 200 * step).collect();
    speeds.extend((1..=8).map(|step| 16_000 - 400 * step));
    let within = trip.with_speeds(at, &speeds);
    let beyond = within.with(at + 16, |second| second.speed = 16_001);
    Pair::of_reason(7, "a speed of 16,000, and 16,001", within, beyond)
}

/// "7: .. seconds above 14,500 over 3 percent of motorway seconds": 21 and 22 of 700.
fn most_above_14_500() -> Pair {
    let mut wish = Wish::usual();
    let mut speeds: Vec<u16> = (1..=9).map(|step| 12_600 + 200 * step).collect();
    speeds.extend([14_500; 2]);
    speeds.extend([14_600; 21]);
    speeds.extend((1..=8).map(|step| 14_500 - 200 * step));
    wish.seconds[MOTORWAY] = 700 - speeds.len() as i64;
    let trip = Trip::of(&wish);
    let at = trip.after_last(12_600);
    let within = trip.with_speeds(at, &speeds);
    let beyond = within.with(at + 10, |second| second.speed = 14_501);
    let what = "3 percent above 14,500, and one more by a speed of 14,501";
    Pair::of_reason(7, what, within, beyond)
}
