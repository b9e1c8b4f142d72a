//! Reasons 2 to 4: the distances of the parts, their shares, the urban mean.

use super::drive::{Waves, Wish};
use super::measure::{MOTORWAY, NAMES, RURAL, URBAN};
use super::{Pair, Trip};

pub fn pairs() -> Vec<Pair> {
    let mut pairs = Vec::new();
    pairs.extend(shortest_parts());
    pairs.extend(shares());
    pairs.push(slowest_urban());
    pairs.push(fastest_urban());
    pairs
}

/// A drive with these distances, the holds of rural and motorway at a usual speed.
fn of_distances(distance: [i64; 3], urban_seconds: i64) -> Wish {
    let usual = Wish::usual();
    let mut wish = usual.clone();
    wish.waves[URBAN].count = (distance[URBAN] / 215_000) as usize;
    wish.distance = distance;
    wish.seconds[URBAN] = urban_seconds;
    for (which, speed) in [(RURAL, 7_400), (MOTORWAY, 11_300)] {
        let more = distance[which] - usual.distance[which];
        wish.seconds[which] = usual.seconds[which] + more / speed;
    }
    wish
}

/// "2: a part's S below 5,760,000."
fn shortest_parts() -> Vec<Pair> {
    let least = 5_760_000;
    let drives = [
        of_distances([least, 7_000_000, 7_000_000], 3_830),
        of_distances([9_500_000, least, 8_000_000], 4_300),
        of_distances([9_500_000, 8_000_000, least], 4_300),
    ];
    let pair = |which: usize| {
        let within = Trip::of(&drives[which]);
        let beyond = within.with_distance(which, -1);
        let what = format!("{} distance 5,760,000 and 5,759,999", NAMES[which]);
        Pair::of_reason(2, &what, within, beyond)
    };
    [URBAN, RURAL, MOTORWAY].map(pair).into()
}

/// "3: a part's share of S outside, in percent, urban 29 to 44, rural and motorway 23 to 43."
fn shares() -> Vec<Pair> {
    let pair = |which: usize, end: &str, distance: [i64; 3], urban_seconds: i64| {
        let within = Trip::of(&of_distances(distance, urban_seconds));
        let beyond = within.with_distance(which, if end == "least" { -1 } else { 1 });
        let percent = 100 * distance[which] / distance.iter().sum::<i64>();
        let what = format!("{} share, {end} {percent} percent", NAMES[which]);
        Pair::of_reason(3, &what, within, beyond)
    };
    vec![
        pair(URBAN, "least", [5_800_000, 7_100_000, 7_100_000], 3_850),
        pair(URBAN, "most", [10_560_000, 6_720_000, 6_720_000], 4_300),
        pair(RURAL, "least", [11_000_000, 5_980_000, 9_020_000], 4_300),
        pair(RURAL, "most", [6_600_000, 9_460_000, 5_940_000], 4_000),
        pair(MOTORWAY, "least", [11_000_000, 9_020_000, 5_980_000], 4_300),
        pair(MOTORWAY, "most", [6_600_000, 5_940_000, 9_460_000], 4_000),
    ]
}

/// "4: urban mean outside 1,500 to 4,000": S is 1,500 N, and one less.
fn slowest_urban() -> Pair {
    let within = Trip::of(&of_distances([6_000_000, 7_000_000, 7_000_000], 4_000));
    let beyond = within.with_distance(URBAN, -1);
    Pair::of_reason(4, "urban mean 1,500, and S one less", within, beyond)
}

/// "4: urban mean outside 1,500 to 4,000": S is 4,000 N, and one more.
fn fastest_urban() -> Pair {
    let mut wish = of_distances([14_000_000, 9_500_000, 9_500_000], 3_500);
    wish.waves[URBAN] = Waves {
        count: 36,
        low_seconds: 5,
        high: 5_800,
        up: 290,
        down: 290,
        ..wish.waves[URBAN]
    };
    wish.stops = 230;
    let within = Trip::of(&wish);
    let beyond = within.with_distance(URBAN, 1);
    Pair::of_reason(4, "urban mean 4,000, and S one more", within, beyond)
}
