//! Refusals: each alone and each with each other, at every call that has an order.

use library::SweepState;
use oracle::second::Second;
use oracle::Plan;

use super::Chosen;
use crate::case::{Case, SweepInput, TripInput, WriteInput};
use crate::lanes::Lanes;

const LIMIT: usize = 8_192;

const PLAN: Plan = Plan {
    reference: 90,
    e1: 200_000,
    e2: 140_000,
    e3: 160_000,
    lower: 25,
    upper: [45, 40, 35],
};

const MEASURED: Second = Second {
    state: 1,
    speed: 4_000,
    altitude: 10,
    co2: 50,
    nox: 3,
};

pub fn add(all: &mut Chosen) {
    trips(all);
    lanes_of_a_trip(all);
    d(all);
    sweeps(all);
    percentiles(all);
    limits(all);
}

/// Whether a fault is among those that a number counts.
fn has(faults: u32, fault: u32) -> bool {
    faults >> fault & 1 == 1
}

/// At most two faults at once.
fn pairs(count: u32) -> impl Iterator<Item = u32> {
    (0..1 << count).filter(|faults: &u32| faults.count_ones() <= 2)
}

/// Lanes with faults: of differing length, too long, out of range, without a recorded second.
fn faulty(differ: bool, long: bool, wild: bool, none: bool) -> Lanes {
    let n = if long { LIMIT + 1 } else { 5 };
    let mut seconds = vec![MEASURED; n];
    seconds[1].state = 2;
    if none {
        seconds.fill(Second {
            state: 2,
            ..MEASURED
        });
    }
    if wild {
        seconds[2].state = 4;
        seconds[3].state = 0;
    }
    let mut lanes = Lanes::of(&seconds);
    if differ {
        lanes.nox.pop();
    }
    lanes
}

/// Faults 5, 1, 2, 6, 3, 4.
fn trips(all: &mut Chosen) {
    for faults in pairs(6) {
        let trip = faulty(
            has(faults, 1),
            has(faults, 2),
            has(faults, 4),
            has(faults, 5),
        );
        let mut plan = PLAN;
        if has(faults, 0) {
            plan.e3 = 0;
        }
        let n = trip.states.len();
        let short = usize::from(has(faults, 3));
        let places = [n, n, n - short, n];
        evaluate(all, plan, trip, places);
    }
    evaluate(all, PLAN, Lanes::default(), [0; 4]);
    let wild = faulty(false, false, true, false);
    let n = wild.states.len();
    evaluate(all, PLAN, wild, [n; 4]);
}

fn evaluate(all: &mut Chosen, plan: Plan, trip: Lanes, places: [usize; 4]) {
    let input = TripInput {
        plan,
        trip,
        places,
        printed: false,
    };
    all.add("order of the trip", Case::Trip(input));
}

/// Lanes of which one is a place shorter or longer.
fn differing() -> Vec<Lanes> {
    let mut all = Vec::new();
    for lane in 0..5 {
        for longer in [false, true] {
            let mut trip = faulty(false, false, false, false);
            match (lane, longer) {
                (0, false) => drop(trip.states.pop()),
                (1, false) => drop(trip.speeds.pop()),
                (2, false) => drop(trip.altitudes.pop()),
                (3, false) => drop(trip.co2.pop()),
                (_, false) => drop(trip.nox.pop()),
                (0, true) => trip.states.push(1),
                (1, true) => trip.speeds.push(1),
                (2, true) => trip.altitudes.push(1),
                (3, true) => trip.co2.push(1),
                (_, true) => trip.nox.push(1),
            }
            all.push(trip);
        }
    }
    all
}

/// Each lane one place shorter and one longer; each lent lane one shorter, and as the kept need.
fn lanes_of_a_trip(all: &mut Chosen) {
    let good = faulty(false, false, false, false);
    let n = good.states.len();
    for trip in differing() {
        evaluate(all, PLAN, trip.clone(), [n + 1; 4]);
        all.add("order of D", Case::D { trip, index: 2 });
    }
    for lane in 0..4 {
        for places in [n - 1, n + 1] {
            let mut lengths = [n; 4];
            lengths[lane] = places;
            evaluate(all, PLAN, good.clone(), lengths);
        }
    }
    evaluate(all, PLAN, good, [n - 1; 4]);
}

/// Faults 1, 2, 3, and 4 in both its meanings.
fn d(all: &mut Chosen) {
    for faults in pairs(5) {
        let trip = faulty(
            has(faults, 0),
            has(faults, 1),
            has(faults, 2),
            has(faults, 3),
        );
        let index = if has(faults, 4) { trip.states.len() } else { 3 };
        all.add("order of D", Case::D { trip, index });
    }
}

/// Faults 5, 2, 6, 3, 13.
fn sweeps(all: &mut Chosen) {
    for faults in pairs(5) {
        let n = if has(faults, 1) { LIMIT + 1 } else { 6 };
        let mut co2 = vec![3; n];
        if has(faults, 3) {
            co2[2] = 100_001;
            co2[4] = u32::MAX;
        }
        let input = SweepInput {
            reference: if has(faults, 0) { 0 } else { 7 },
            co2,
            places: n - usize::from(has(faults, 2)),
            state: SweepState {
                moves: u64::from(has(faults, 4)),
                ..SweepState::default()
            },
            budget: 4,
        };
        all.add("order of the sweep", Case::Sweep(input));
    }
    for reference in [0, 1, 2, 19_999_999, 20_000_000, 20_000_001] {
        let input = SweepInput {
            reference,
            co2: vec![0, 1, 100_000],
            places: 3,
            state: SweepState::default(),
            budget: 9,
        };
        all.add("order of the sweep", Case::Sweep(input));
    }
}

/// Faults 2 and 12, which exclude each other, 6, 3.
fn percentiles(all: &mut Chosen) {
    for count in [99, 100, 101, LIMIT + 1] {
        for faults in 0..4 {
            let mut products: Vec<u32> = (0..count as u32).collect();
            if has(faults, 0) {
                products[7] = 625_000_001;
                products[9] = u32::MAX;
            }
            let places = count - usize::from(has(faults, 1));
            all.add(
                "order of the percentile",
                Case::Percentile { products, places },
            );
        }
    }
}

/// As many seconds as a call takes, and one more.
fn limits(all: &mut Chosen) {
    for n in [LIMIT, LIMIT + 1] {
        let trip = Lanes::of(&vec![MEASURED; n]);
        evaluate(all, PLAN, trip.clone(), [n; 4]);
        all.add("range of D", Case::D { trip, index: 7 });
        let input = SweepInput {
            reference: 20_000_000,
            co2: vec![1; n],
            places: n,
            state: SweepState::default(),
            budget: 3,
        };
        all.add("range of the sweep", Case::Sweep(input));
        let products = (0..n as u32).collect();
        all.add(
            "range of the percentile",
            Case::Percentile {
                products,
                places: n,
            },
        );
    }
}

/// More bytes than the stream of any of these trips has.
const ROOM: usize = 15 * (LIMIT + 3);

/// Fewer than any has whose seconds are in range.
const SHORT: usize = 40;

/// The writer's: faults 5, 1, 2, 3, 6; each lane shorter and longer; as many seconds as a call takes.
pub fn add_writes(all: &mut Chosen) {
    let mut write = |plan: Plan, trip: Lanes, places: usize| {
        let input = WriteInput { plan, trip, places };
        all.add("writer, refusals", Case::Write(input));
    };
    for faults in pairs(5) {
        let trip = faulty(has(faults, 1), has(faults, 2), has(faults, 3), false);
        let mut plan = PLAN;
        if has(faults, 0) {
            plan.upper[1] = 101;
        }
        write(plan, trip, if has(faults, 4) { SHORT } else { ROOM });
    }
    for trip in differing() {
        write(PLAN, trip, ROOM);
    }
    write(PLAN, Lanes::of(&[MEASURED; LIMIT]), ROOM);
    write(PLAN, Lanes::of(&[MEASURED; LIMIT + 1]), ROOM);
}
