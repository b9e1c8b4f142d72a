//! Plans and lanes to be written: each state, the ends of every range, and buffers of every length.

use oracle::second::Second;
use oracle::Plan;

use super::refusals::add_writes;
use super::streams::{plans_at_ends, second, seconds_at_ends, PLAN};
use super::Chosen;
use crate::case::{Case, WriteInput};
use crate::lanes::Lanes;
use crate::streams::of_trip;

/// A missing second whose values must not be looked at.
const MISSING: Second = Second {
    state: 2,
    speed: u16::MAX,
    altitude: i32::MIN,
    co2: u32::MAX,
    nox: u32::MAX,
};

/// Places behind the stream: as many as one item has and one more.
const BEHIND: usize = 16;

pub fn add(all: &mut Chosen) {
    buffers(all);
    tails(all);
    ranges(all);
    states(all);
    add_writes(all);
}

fn write(all: &mut Chosen, about: &str, plan: Plan, seconds: &[Second], places: usize) {
    let trip = Lanes::of(seconds);
    let input = WriteInput { plan, trip, places };
    all.add(&format!("writer, {about}"), Case::Write(input));
}

/// Writes into a buffer with some places more than the stream has bytes.
fn with_room(all: &mut Chosen, about: &str, plan: Plan, seconds: &[Second]) {
    let places = of_trip(&plan, seconds).len() + BEHIND;
    write(all, about, plan, seconds, places);
}

/// A second of each state, each value its own.
fn mixed() -> [Second; 5] {
    [
        second(1, 3_600, -321, 70_001, 9_000_001),
        MISSING,
        second(3, 9_001, -50_000, 5, 7),
        second(1, 25_000, 500_000, 100_000, 10_000_000),
        second(3, 300, 66_051, 40, 263_430),
    ]
}

/// Every length from none to some bytes more than the stream has.
fn buffers(all: &mut Chosen) {
    let seconds = mixed();
    for places in 0..=of_trip(&PLAN, &seconds).len() + BEHIND {
        write(all, "buffers", PLAN, &seconds, places);
    }
}

/// No second; a last second that is missing, that stands, that is checked; missing ones alone.
fn tails(all: &mut Chosen) {
    let [measured, _, check, ..] = mixed();
    let standing = second(1, 0, 7, 8, 9);
    let trips: [&[Second]; 6] = [
        &[],
        &[measured, MISSING],
        &[measured, standing, standing],
        &[measured, check],
        &[MISSING],
        &[MISSING, MISSING, MISSING],
    ];
    for seconds in trips {
        let needed = of_trip(&PLAN, seconds).len();
        for places in [needed - 1, needed, needed + BEHIND] {
            write(all, "tails", PLAN, seconds, places);
        }
    }
}

/// Both sides of every end of a plan's and a second's ranges, behind a good second.
fn ranges(all: &mut Chosen) {
    let [measured, ..] = mixed();
    for plan in plans_at_ends() {
        with_room(all, "ranges", plan, &[measured]);
    }
    for state in [1, 2, 3] {
        for second in seconds_at_ends(state) {
            with_room(all, "ranges", PLAN, &[measured, second]);
        }
    }
}

/// Every state of a byte, first and last.
fn states(all: &mut Chosen) {
    let [measured, ..] = mixed();
    for state in 0..=u8::MAX {
        let second = Second { state, ..measured };
        with_room(all, "states", PLAN, &[second, MISSING, measured]);
        with_room(all, "states", PLAN, &[MISSING, measured, second]);
    }
}
