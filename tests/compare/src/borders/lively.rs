//! Reason 12: a bin too lively, at its border by one unit of distance.
//!
//! The last step of each wave upwards has the product that is the percentile. Where a pair says
//! nothing else, the two sides of the rule are equal within.

use oracle::second::Second;

use super::drive::{Waves, Wish};
use super::measure::{figures, MOTORWAY, NAMES, RURAL, URBAN};
use super::{Pair, Trip};

pub fn pairs() -> Vec<Pair> {
    let slower = rural(6_200, 483, 1_020);
    let faster = rural(6_300, 486, 1_007);
    let mut pairs = vec![
        equal("urban", URBAN, &urban(), first_line),
        equal("rural, mean at most 7,460", RURAL, &slower, first_line),
        equal("rural, mean above 7,460", RURAL, &faster, second_line),
        equal("motorway", MOTORWAY, &motorway(), second_line),
        rural_at_the_turn(),
    ];
    let between: [(usize, Wish, Line); 3] = [
        (URBAN, many_steps(URBAN, 45, 300, 700), first_line),
        (RURAL, many_steps(RURAL, 10, 130, 700), second_line),
        (MOTORWAY, many_steps(MOTORWAY, 10, 120, 500), second_line),
    ];
    for (which, wish, line) in between {
        pairs.push(between_ranks(which, &wish, line));
        pairs.push(by_one_product(which, &wish, line));
    }
    pairs
}

/// A drive whose urban waves rise from 4,800 by a last step of 545: a product of 4,800 times 945.
fn urban() -> Wish {
    let mut wish = Wish::usual();
    wish.waves[URBAN] = Waves {
        high: 4_800,
        up: 400,
        kick: 545,
        ..wish.waves[URBAN]
    };
    wish
}

/// A drive whose rural waves rise by 1,800 and a last step.
fn rural(low: u16, kick: u16, seconds: i64) -> Wish {
    let mut wish = Wish::usual();
    wish.waves[RURAL] = Waves {
        count: 10,
        low,
        high: low + 1_800,
        up: 300,
        kick,
        ..wish.waves[RURAL]
    };
    wish.seconds[RURAL] = seconds;
    wish
}

/// A drive whose motorway waves rise from 12,000 by a last step of 363.
fn motorway() -> Wish {
    let mut wish = Wish::usual();
    wish.waves[MOTORWAY] = Waves {
        count: 10,
        low_seconds: 4,
        high: 12_000,
        high_seconds: 6,
        up: 225,
        down: 200,
        kick: 363,
        ..wish.waves[MOTORWAY]
    };
    wish.seconds[MOTORWAY] = 693;
    wish
}

/// A drive whose waves of one bin have so many products that their last steps alone are not the
/// highest twentieth.
fn many_steps(which: usize, count: usize, up: u16, kick: u16) -> Wish {
    let mut wish = Wish::usual();
    wish.waves[which] = Waves {
        count,
        low_seconds: 4,
        high: [4_800, 8_000, 12_000][which],
        high_seconds: 6,
        up,
        down: 200,
        kick,
        ..wish.waves[which]
    };
    wish
}

/// "5QN > 176,256S + 1,871,424,000N": what S times 176,256 has to reach.
fn first_line(q: i64, n: i64) -> (i64, i64) {
    ((5 * q - 1_871_424_000) * n, 176_256)
}

/// "25QN > 480,816S + 12,289,968,000N": what S times 480,816 has to reach.
fn second_line(q: i64, n: i64) -> (i64, i64) {
    ((25 * q - 12_289_968_000) * n, 480_816)
}

type Line = fn(i64, i64) -> (i64, i64);

/// The least distance that is not too lively, and one unit less.
fn by_distance(what: &str, which: usize, wish: &Wish, line: Line) -> Pair {
    let mut wish = wish.clone();
    let q = figures(&wish.waves_alone())[which].percentile();
    let (reach, by) = line(q, wish.seconds[which]);
    wish.distance[which] = (reach + by - 1) / by;
    let within = Trip::of(&wish);
    let beyond = within.with_distance(which, -1);
    Pair::of_reason(12, &format!("{what}, by S one less"), within, beyond)
}

/// The distance at which the two sides of the rule are equal, and one unit less.
fn equal(what: &str, which: usize, wish: &Wish, line: Line) -> Pair {
    let of_bin = &figures(&wish.waves_alone())[which];
    let (reach, by) = line(of_bin.percentile(), wish.seconds[which]);
    assert_eq!(reach % by, 0, "equal sides in bin {which}");
    by_distance(what, which, wish, line)
}

/// "Q = 100x(j) + r(x(j+1) - x(j))" with r not 0 and x(j+1) above x(j).
fn between_ranks(which: usize, wish: &Wish, line: Line) -> Pair {
    let products = &figures(&wish.waves_alone())[which].products;
    let j = 95 * products.len() / 100;
    assert!(
        100 * j < 95 * products.len() && products[j - 1] < products[j],
        "ranks {j} apart"
    );
    by_distance(
        &format!("{}, Q between two ranks", NAMES[which]),
        which,
        wish,
        line,
    )
}

/// "Q = 100x(j) + r(x(j+1) - x(j))": x(j+1) less by one step of D, and not.
fn by_one_product(which: usize, wish: &Wish, line: Line) -> Pair {
    let beyond = between_ranks(which, wish, line).beyond;
    let (high, top) = (
        wish.waves[which].high,
        wish.waves[which].high + wish.waves[which].kick,
    );
    let kicks = |two: &[Second]| two[0].speed == high && two[1].speed == top;
    let before = beyond.seconds.windows(2).position(kicks).expect("a kick");
    let within = beyond.with(before + 1, |second| second.speed -= 1);
    let what = format!("{}, by one product", NAMES[which]);
    Pair::of_reason(12, &what, within, beyond)
}

/// "if S ≤ 7,460N, .. else ..": Q between the two lines, S 7,460 N, and one more.
fn rural_at_the_turn() -> Pair {
    let mut wish = rural(6_200, 496, 1_010);
    wish.distance[RURAL] = 7_460 * wish.seconds[RURAL];
    let within = Trip::of(&wish);
    let beyond = within.with_distance(RURAL, 1);
    Pair::of_reason(12, "rural mean 7,460, and S one more", within, beyond)
}
