//! Reason 13: a bin too dull, at its border by one unit of distance.

use super::drive::{Waves, Wish};
use super::measure::{figures, MOTORWAY, RURAL, URBAN};
use super::{Pair, Trip};

pub fn pairs() -> Vec<Pair> {
    vec![
        urban(),
        rural(),
        motorway_up_to_9_405(),
        motorway_above_9_405(),
        motorway_at_the_turn(),
    ]
}

/// T of the waves of a bin; the hold adds nothing to it.
fn product_sum(wish: &Wish, which: usize) -> i64 {
    figures(&wish.waves_alone())[which].product_sum()
}

/// The pair of a drive at its border, and of one unit of distance towards dull.
fn pair(what: &str, which: usize, wish: &Wish, towards_dull: i32) -> Pair {
    let within = Trip::of(wish);
    let beyond = within.with_distance(which, towards_dull);
    Pair::of_reason(13, what, within, beyond)
}

/// "3,125TN + 36S² < 394,875SN": the two sides are equal, and S is one more.
fn urban() -> Pair {
    let mut wish = Wish::usual();
    wish.waves[URBAN].count = 33;
    wish.waves[URBAN].high = 5_100;
    wish.seconds[URBAN] = 4_000;
    wish.distance[URBAN] = 9_750_000;
    assert_equal_by_first_line(&wish, URBAN);
    pair("urban, by S one more", URBAN, &wish, 1)
}

/// "3,125TN + 36S² < 394,875SN": the two sides are equal, and S is one less; above a mean of 5,484
/// the rule asks less of a faster bin.
fn rural() -> Pair {
    let mut wish = Wish::usual();
    wish.waves[RURAL].count = 7;
    wish.waves[RURAL].high = 8_590;
    wish.seconds[RURAL] = 1_080;
    wish.distance[RURAL] = 8_017_500;
    assert_equal_by_first_line(&wish, RURAL);
    pair("rural, by S one less", RURAL, &wish, -1)
}

fn assert_equal_by_first_line(wish: &Wish, which: usize) {
    let (s, n, t) = (
        wish.distance[which],
        wish.seconds[which],
        product_sum(wish, which),
    );
    assert_eq!(
        3_125 * t * n + 36 * s * s,
        394_875 * s * n,
        "T {t} of bin {which}"
    );
}

/// A drive with many slow motorway waves, of which the heights alone pass 10,000.
fn slow_motorway() -> Wish {
    let mut wish = Wish::usual();
    wish.waves[MOTORWAY] = Waves {
        count: 10,
        low: 9_020,
        low_seconds: 1,
        high: 10_100,
        high_seconds: 30,
        up: 120,
        down: 120,
        ..wish.waves[MOTORWAY]
    };
    wish.waves[URBAN].count = 50;
    wish.distance = [11_000_000, 8_500_000, 0];
    wish.seconds[RURAL] = 1_150;
    wish
}

/// "if S ≤ 9,405N, 3,125TN + 36S² < 394,875SN": the two sides are equal, and S is one less.
fn motorway_up_to_9_405() -> Pair {
    let mut wish = slow_motorway();
    wish.waves[MOTORWAY] = Waves {
        low: 9_100,
        high: 10_140,
        high_seconds: 28,
        up: 110,
        ..wish.waves[MOTORWAY]
    };
    wish.seconds[MOTORWAY] = 1_248;
    wish.distance[MOTORWAY] = 11_700_000;
    assert_equal_by_first_line(&wish, MOTORWAY);
    let what = "motorway, mean at most 9,405, by S one less";
    pair(what, MOTORWAY, &wish, -1)
}

/// "else T < 18S"
fn motorway_above_9_405() -> Pair {
    let mut wish = Wish::usual();
    wish.waves[MOTORWAY].count = 2;
    wish.waves[MOTORWAY].up = 40;
    let t = product_sum(&wish, MOTORWAY);
    let s = t / 18;
    assert_eq!(t, 18 * s, "T at its border");
    wish.distance[MOTORWAY] = s;
    wish.seconds[MOTORWAY] = s / 11_300;
    pair(
        "motorway, mean above 9,405, by S one more",
        MOTORWAY,
        &wish,
        1,
    )
}

/// "if S ≤ 9,405N, .. else ..": T between the two lines, S one more than 9,405 N, and 9,405 N.
fn motorway_at_the_turn() -> Pair {
    let mut wish = slow_motorway();
    let t = product_sum(&wish, MOTORWAY);
    let n = t / (18 * 9_405 + 1);
    let s = 9_405 * n;
    assert!(
        18 * (s + 1) <= t && 3_125 * t * n + 36 * s * s < 394_875 * s * n,
        "T {t} between the lines at {n} seconds"
    );
    wish.seconds[MOTORWAY] = n;
    wish.distance[MOTORWAY] = s + 1;
    pair("motorway mean 9,405 by S one less", MOTORWAY, &wish, -1)
}
