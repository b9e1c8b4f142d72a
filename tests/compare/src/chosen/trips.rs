//! Small trips of any character, and those that show a sentence about states, climb or windows.

use oracle::second::Second;
use oracle::Plan;

use super::Chosen;
use crate::case::{Case, TripInput};
use crate::lanes::Lanes;
use crate::random::Random;
use crate::trips;

pub fn add(all: &mut Chosen, random: &mut Random) {
    any(all, random);
    climbs(all);
    altitudes_by_state(all);
}

fn evaluate(all: &mut Chosen, about: &str, plan: Plan, seconds: &[Second]) {
    let n = seconds.len();
    let input = TripInput {
        plan,
        trip: Lanes::of(seconds),
        places: [n + 1, n + 2, n + 3, n],
        printed: false,
    };
    all.add(about, Case::Trip(input));
}

/// Trips of up to some hundred seconds: all speeds, all altitudes, any state.
fn any(all: &mut Chosen, random: &mut Random) {
    for round in 0..150 {
        let n = if round % 5 == 0 { 450 } else { 24 };
        let plan = trips::plan(random);
        let seconds = trips::small(random, n);
        evaluate(all, "trip", plan, &seconds);
    }
}

const PLAN: Plan = Plan {
    reference: 9,
    e1: 200_000,
    e2: 140_000,
    e3: 160_000,
    lower: 25,
    upper: [45, 40, 35],
};

fn second(state: u8, speed: u16, altitude: i32) -> Second {
    Second {
        state,
        speed,
        altitude,
        co2: 4,
        nox: 6,
    }
}

/// Changes of altitude at every border of the rule that holds them, over gaps and standing still.
fn climbs(all: &mut Chosen) {
    for speed in [0u16, 1, 5, 6, 3_600, 24_998, 24_999, 25_000] {
        let limit = (25.0 * f64::from(speed).powi(2) / 648.0).sqrt() as i32;
        for change in limit - 1..=limit + 2 {
            let altitudes = [0, change, change, 2 * change, 0, -change, 5];
            let seconds = altitudes.map(|altitude| second(1, speed, altitude));
            evaluate(all, "climb", PLAN, &seconds);
        }
    }
    let gap = second(2, 65_535, i32::MIN);
    let hills = [
        vec![
            second(1, 900, 0),
            gap,
            second(1, 900, 70_000),
            second(1, 0, 0),
        ],
        vec![
            second(3, 900, 50),
            gap,
            gap,
            second(3, 900, 20),
            second(1, 900, 60),
        ],
        vec![gap, second(1, 0, 500), second(1, 0, 900), second(1, 0, 900)],
        vec![
            second(1, 0, 0),
            second(1, 3_600, 700),
            second(1, 0, 900),
            second(1, 3_600, 900),
        ],
    ];
    for seconds in hills {
        evaluate(all, "climb", PLAN, &seconds);
    }
}

/// Each state at the beginning, in the middle and at the end.
fn altitudes_by_state(all: &mut Chosen) {
    for first in 0..=4 {
        for middle in 1..=3 {
            for last in 1..=3 {
                let seconds = [
                    second(first, 7_000, 20_000),
                    second(middle, 5_000, 131_000),
                    second(1, 12_000, 400),
                    second(last, 9_500, 9_000),
                ];
                evaluate(all, "state", PLAN, &seconds);
            }
        }
    }
}
