//! Reason 5: standing.

use super::base::MEASURED;
use super::drive::Wish;
use super::measure::URBAN;
use super::{Pair, Trip};

pub fn pairs() -> Vec<Pair> {
    vec![fewest(), most(), fewest_by_speed(), most_by_speed()]
}

/// A trip of 4,000 urban seconds with so many seconds below 100.
fn with_stops(stops: usize) -> Trip {
    let mut wish = Wish::usual();
    wish.waves[URBAN].low_seconds = if stops < 500 { 4 } else { 20 };
    wish.seconds[URBAN] = 4_000;
    wish.stops = stops;
    Trip::of(&wish)
}

/// "5: urban seconds below 100 not 6 to 30 percent of urban seconds": 240 of 4,000 and of 4,001.
fn fewest() -> Pair {
    let within = with_stops(240);
    let at = within.middle(URBAN);
    let more = within.seconds[at];
    let beyond = within.with_more(at, &[more]);
    Pair::of_reason(
        5,
        "6 percent standing, and one second more driven",
        within,
        beyond,
    )
}

/// "5: urban seconds below 100 not 6 to 30 percent of urban seconds": 1,200 of 4,000 and of 3,999.
fn most() -> Pair {
    let within = with_stops(1_200);
    let mut beyond = within.clone();
    beyond.seconds.remove(within.middle(URBAN));
    Pair::of_reason(
        5,
        "30 percent standing, and one second less driven",
        within,
        beyond,
    )
}

/// "urban seconds below 100": of 4,000 the 240th that counts has speed 99, and 100.
fn fewest_by_speed() -> Pair {
    let within = with_stops(240).with(0, |second| second.speed = 99);
    assert_eq!(within.seconds[0].state, MEASURED);
    let beyond = within.with(0, |second| second.speed = 100);
    Pair::of_reason(
        5,
        "6 percent standing by a speed of 99, and 100",
        within,
        beyond,
    )
}

/// "urban seconds below 100": of 4,000 the 1,201st that would count has speed 100, and 99.
fn most_by_speed() -> Pair {
    let within = with_stops(1_201).with(0, |second| second.speed = 100);
    let beyond = within.with(0, |second| second.speed = 99);
    Pair::of_reason(
        5,
        "30 percent standing by a speed of 100, and 99",
        within,
        beyond,
    )
}
