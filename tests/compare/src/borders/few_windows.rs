//! Trips with a handful of windows, each with its end and its mass as wanted.
//!
//! The first kept seconds, the heads, have a mass each; the seconds after them nearly the whole
//! reference; then nothing but one mass at the end of each window. The window of each head takes
//! the mass that the head before it gave up. From the seconds after the heads on the reference is
//! not reached any more, so there are as many windows as heads.

use super::base::{MEASURED, MISSING};
use super::drive::Wish;
use super::measure::{MOTORWAY, RURAL, URBAN};
use super::Trip;

pub const REFERENCE: i64 = 1_750_000;
/// The usual mass of a window.
pub const MASS: i64 = REFERENCE + 2_000;
const HEAD: u32 = 30_000;
const AFTER_HEADS: usize = 31;
const AFTER_HEAD: u32 = 50_000;

/// The end of a window among the kept seconds, from 0, and its mass.
#[derive(Clone, Copy, Debug)]
pub struct Window {
    pub last: usize,
    pub mass: i64,
}

/// A drive of motorway, then urban, then rural: the mean from its start falls with every second of
/// the urban part, through all three classes.
pub fn falling_drive() -> Trip {
    let mut wish = Wish::usual();
    wish.order = [MOTORWAY, URBAN, RURAL];
    wish.distance = [10_000_000, 7_000_000, 7_000_000];
    wish.seconds = [4_700, 943, 616];
    Trip::of(&wish)
}

/// "Kept: state 1 and speed at least 100": their places in the trip.
pub fn kept(trip: &Trip) -> Vec<usize> {
    let seconds = trip.seconds.iter().enumerate();
    let kept = seconds.filter(|(_, second)| second.state == MEASURED && second.speed >= 100);
    kept.map(|(index, _)| index).collect()
}

/// S of the kept seconds from `first` to `last`.
pub fn distance(trip: &Trip, first: usize, last: usize) -> i64 {
    let kept = kept(trip);
    let speeds = kept[first..=last]
        .iter()
        .map(|&index| i64::from(trip.seconds[index].speed));
    speeds.sum()
}

/// The last kept second before the mean from `first` on falls below `mean`, having risen above it.
pub fn last_at_mean(trip: &Trip, first: usize, mean: i64) -> usize {
    let kept = kept(trip);
    let mut above = 0;
    let mut has_risen = false;
    for (last, &index) in kept.iter().enumerate().skip(first) {
        above += i64::from(trip.seconds[index].speed) - mean;
        if has_risen && above < 0 {
            return last - 1;
        }
        has_risen |= above >= 0;
    }
    panic!("no fall below a mean of {mean}");
}

/// The trip with exactly these windows.
pub fn with_windows(trip: &Trip, windows: &[Window]) -> Trip {
    let mut trip = trip.clone();
    let kept = kept(&trip);
    trip.plan.reference = REFERENCE as u32;
    for second in &mut trip.seconds {
        if second.state != MISSING {
            second.co2 = 0;
        }
    }
    let heads = windows.len();
    for (i, &index) in kept[..heads + AFTER_HEADS].iter().enumerate() {
        trip.seconds[index].co2 = if i < heads { HEAD } else { AFTER_HEAD };
    }
    for (first, window) in windows.iter().enumerate() {
        let masses = kept[first..window.last].iter();
        let already: i64 = masses
            .map(|&index| i64::from(trip.seconds[index].co2))
            .sum();
        assert!(
            already < REFERENCE && window.mass >= REFERENCE,
            "window {first} ends at its end"
        );
        trip.seconds[kept[window.last]].co2 = (window.mass - already) as u32;
    }
    trip
}

/// The trip with its motorway hold slower by so much in all.
pub fn with_slower_motorway(trip: &Trip, by: i64) -> Trip {
    let mut trip = trip.clone();
    let (first, length) = trip.hold(MOTORWAY);
    let (each, more) = (by as usize / length, by as usize % length);
    for (i, second) in trip.seconds[first..first + length].iter_mut().enumerate() {
        second.speed -= (each + usize::from(i < more)) as u16;
    }
    trip
}
