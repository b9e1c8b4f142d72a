//! Reason 14 and the classes of windows.

use oracle::Plan;

use super::drive::Wish;
use super::few_windows::{
    distance, falling_drive, kept, last_at_mean, with_slower_motorway, with_windows, Window, MASS,
    REFERENCE,
};
use super::measure::{MOTORWAY, NAMES, RURAL, URBAN};
use super::{Pair, Trip};

pub fn pairs() -> Vec<Pair> {
    vec![
        only_window(URBAN, &[10_000, 9_500, 7_000, 6_000, 4_300]),
        only_window(RURAL, &[10_000, 9_500, 6_500, 4_400, 4_200]),
        only_window(MOTORWAY, &[10_000, 7_000, 6_000, 4_400, 4_200]),
        mean_at_border("45,000", 3, &[10_000, 9_500, 7_000, 4_500, 4_200]),
        mean_at_border("80,000", 1, &[10_000, 8_000, 7_000, 6_000, 4_200]),
        mean_at_145_000(),
    ]
}

/// A curve far above all masses: every window of a class is inside.
fn wide_plan(reference: i64) -> Plan {
    Plan {
        reference: reference as u32,
        e1: 300_000,
        e2: 200_000,
        e3: 250_000,
        lower: 100,
        upper: [100; 3],
    }
}

/// Windows of the usual mass, from the first kept seconds on, each as long as its mean is at least
/// as wanted.
fn windows_at(trip: &Trip, means: &[i64]) -> Vec<Window> {
    let ends = means.iter().enumerate();
    ends.map(|(first, &mean)| Window {
        last: last_at_mean(trip, first, mean),
        mass: MASS,
    })
    .collect()
}

/// Which class a mean in 0.01 km/h has.
fn class(mean: i64) -> usize {
    match mean {
        0..=4_499 => URBAN,
        4_500..=7_999 => RURAL,
        _ => MOTORWAY,
    }
}

/// "14: a class without windows": its only window reaches the reference exactly, and lacks one mg.
fn only_window(which: usize, means: &[i64]) -> Pair {
    let mut trip = falling_drive();
    let mut windows = windows_at(&trip, means);
    let only = means
        .iter()
        .position(|&mean| class(mean) == which)
        .expect("a window");
    windows[only].mass = REFERENCE;
    trip.plan = wide_plan(REFERENCE);
    let within = with_windows(&trip, &windows);
    let last = kept(&trip)[windows[only].last];
    let beyond = within.with(last, |second| second.co2 -= 1);
    let what = format!("{}, one window and none", NAMES[which]);
    Pair::of_reason(14, &what, within, beyond)
}

/// "Urban: v < 45,000. Rural: to below 80,000.": the mean of one window at the border, and S one
/// less.
fn mean_at_border(border: &str, at: usize, means: &[i64]) -> Pair {
    let trip = falling_drive();
    let windows = windows_at(&trip, means);
    let last = windows[at].last;
    let above = distance(&trip, at, last) - means[at] * (last + 1 - at) as i64;
    let mut trip = with_slower_motorway(&trip, above);
    trip.plan = wide_plan(REFERENCE);
    let beyond = with_windows(&trip, &windows);
    let within = beyond.with_distance(MOTORWAY, -1);
    let name = format!("class: a mean just below {border}, and {border}");
    Pair::of_figure(&name, within, beyond)
}

/// "Motorway: to below 145,000. Faster windows have no class.": a window of three seconds at
/// 14,499, 14,500, 14,500, and at 14,500.
fn mean_at_145_000() -> Pair {
    let mut trip = Trip::of(&Wish::usual());
    trip.plan = wide_plan(40_000);
    let at = trip.after_last(12_600);
    trip.seconds[at].co2 = 14_000;
    let mut speeds: Vec<u16> = (1..=9).map(|step| 12_600 + 200 * step).collect();
    speeds.extend([14_400, 14_500, 14_500, 14_500, 14_400]);
    speeds.extend((1..=8).map(|step| 14_400 - 200 * step));
    let beyond = trip.with_speeds(at, &speeds);
    let within = beyond.with(at + 11, |second| second.speed = 14_499);
    Pair::of_figure(
        "class: a mean just below 145,000, and 145,000",
        within,
        beyond,
    )
}
