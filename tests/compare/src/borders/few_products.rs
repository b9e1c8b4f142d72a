//! Reason 11: a bin with fewer than a hundred seconds that have a D above 72.

use super::drive::{Waves, Wish};
use super::measure::{figures, MOTORWAY, NAMES, RURAL, URBAN};
use super::{Pair, Trip};

pub fn pairs() -> Vec<Pair> {
    let mut pairs = vec![
        pair(URBAN, &urban()),
        pair(RURAL, &rural()),
        pair(MOTORWAY, &motorway()),
    ];
    pairs.extend(at_the_dull_border());
    pairs
}

/// The drive wished for, with 99 seconds of a bin that have a D above 72 and one with a D of 72, and
/// the same with a D of 73.
fn at_99_and_100(which: usize, wish: &Wish) -> (Trip, Trip) {
    let already = figures(&wish.waves_alone())[which].products.len();
    assert!(already <= 99, "{already} products in bin {which}");
    let trip = Trip::of(wish).with_rises(which, 99 - already as u16);
    trip.at_d_72_and_73(which)
}

/// "11: a bin with M below 100": the hundredth has a D of 73, and of 72.
fn pair(which: usize, wish: &Wish) -> Pair {
    let (beyond, within) = at_99_and_100(which, wish);
    let what = format!("{}, M 100 and 99", NAMES[which]);
    Pair::of_reason(11, &what, within, beyond)
}

/// "11: .. (that bin is judged for neither 12 nor 13)": T is 18 S or hardly more with the hundredth
/// product, so that without it the bin would be dull; and with it the bin is dull when S is one
/// more.
fn at_the_dull_border() -> [Pair; 2] {
    let mut wish = Wish::usual();
    wish.waves[MOTORWAY].count = 1;
    wish.waves[MOTORWAY].up = 40;
    wish.distance[MOTORWAY] = 8_200_000;
    wish.seconds[MOTORWAY] = 730;
    loop {
        let (at_99, at_100) = at_99_and_100(MOTORWAY, &wish);
        let motorway = &figures(&at_100.recorded_speeds())[MOTORWAY];
        let more = motorway.product_sum() / 18 - motorway.distance;
        if more == 0 {
            let further = at_100.with_distance(MOTORWAY, 1);
            let unjudged = "motorway, M 100 and not dull, M 99 and dull if it were judged";
            let judged = "motorway, M 100, by S one more";
            return [
                Pair::of_reason(11, unjudged, at_100.clone(), at_99),
                Pair::of_reason(13, judged, at_100, further),
            ];
        }
        wish.distance[MOTORWAY] += more;
    }
}

/// With a hundred products an urban bin is neither dull nor lively only when nearly all of them lie
/// close to the lively border and the five above the percentile are sprints.
fn urban() -> Wish {
    let mut wish = Wish::usual();
    wish.waves[URBAN].count = 5;
    wish.waves[URBAN].high = 5_850;
    for waves in &mut wish.waves {
        waves.spirited = true;
    }
    wish.sprints = 5;
    wish.distance = [5_800_000, 7_000_000, 7_000_000];
    wish.seconds = [3_840, 943, 620];
    wish
}

fn rural() -> Wish {
    let mut wish = Wish::usual();
    wish.waves[RURAL].count = 6;
    wish.waves[RURAL].up = 260;
    wish.distance[RURAL] = 6_300_000;
    wish.seconds[RURAL] = 850;
    wish
}

fn motorway() -> Wish {
    let mut wish = Wish::usual();
    wish.waves[MOTORWAY] = Waves {
        count: 3,
        up: 100,
        ..wish.waves[MOTORWAY]
    };
    wish
}
