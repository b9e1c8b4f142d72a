//! Borders on which no reason hangs: what one second counts as.

use oracle::second::Second;

use super::base::{CHECK, MEASURED, WILD};
use super::drive::Wish;
use super::measure::{MOTORWAY, NAMES, RURAL, URBAN};
use super::{Pair, Trip};

pub fn pairs() -> Vec<Pair> {
    let mut pairs = vec![
        kept_by_speed(),
        kept_by_state(),
        bin_by_speed("bin: urban at 6,000, and rural at 6,001", 6_000),
        bin_by_speed("bin: rural at 9,000, and motorway at 9,001", 9_000),
    ];
    for which in [URBAN, RURAL, MOTORWAY] {
        pairs.push(steepness(which));
        pairs.push(beside_missing(which, "before", -1, Second::missing()));
        pairs.push(beside_missing(which, "after", 1, WILD));
    }
    pairs
}

/// "Kept: state 1 and speed at least 100."
fn kept_by_speed() -> Pair {
    let trip = Trip::of(&Wish::usual());
    let at = trip
        .seconds
        .iter()
        .position(|second| second.speed > 0)
        .expect("a start")
        - 3;
    let within = trip.with(at, |second| second.speed = 99);
    let beyond = trip.with(at, |second| second.speed = 100);
    Pair::of_figure("kept: a speed of 99, and 100", within, beyond)
}

/// "A check second counts with its speed and altitude, not with its masses."
fn kept_by_state() -> Pair {
    let within = Trip::of(&Wish::usual());
    let beyond = within.with(within.middle(RURAL), |second| second.state = CHECK);
    Pair::of_figure("state: measured, and instrument check", within, beyond)
}

/// "Bins by the second's speed: urban up to 6,000, rural up to 9,000, motorway above".
fn bin_by_speed(name: &str, border: u16) -> Pair {
    let trip = Trip::of(&Wish::usual());
    let near = |second: &Second| second.state == MEASURED && second.speed.abs_diff(border) <= 100;
    let at = trip.seconds.iter().rposition(near);
    let at = at.expect("a second on the last ramp downwards");
    let within = trip.with(at, |second| second.speed = border);
    let beyond = trip.with(at, |second| second.speed = border + 1);
    Pair::of_figure(name, within, beyond)
}

/// "Seconds with D > 72 (0.1 m/s²) count".
fn steepness(which: usize) -> Pair {
    let (within, beyond) = Trip::of(&Wish::usual()).at_d_72_and_73(which);
    Pair::of_figure(&format!("D: 72 and 73, {}", NAMES[which]), within, beyond)
}

/// "A missing second has no D, nor has one beside it": the neighbour measured, and missing, with a
/// speed that would leave D above 72.
fn beside_missing(which: usize, side: &str, apart: isize, missing: Second) -> Pair {
    let trip = Trip::of(&Wish::usual());
    let (within, after) = trip.with_speeds_in_hold(which, &[90, 90, 45]);
    let neighbour = (after - 1).wrapping_add_signed(apart);
    let beyond = within.with(neighbour, |second| *second = missing);
    let bin = NAMES[which];
    let name = format!("D: 90 with the second {side} measured, and missing, {bin}");
    Pair::of_figure(&name, within, beyond)
}
