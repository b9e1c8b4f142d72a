//! The sweep, D of one second, the percentile, and the leaves with figures of any size.

use library::SweepState;
use oracle::second::Second;
use oracle::Plan;

use super::Chosen;
use crate::case::{Case, SweepInput};
use crate::ends::{last_mass_at, percentages, plan_with, OnAnEnd, Recipe};
use crate::lanes::Lanes;
use crate::random::Random;

pub fn add(all: &mut Chosen, random: &mut Random) {
    sweeps(all);
    d(all);
    percentiles(all, random);
    dynamics(all);
    windows(all);
}

/// Every budget of small sweeps from the beginning, and on from each state; altered states.
fn sweeps(all: &mut Chosen) {
    let lanes: [(u32, &[u32]); 5] = [
        (7, &[3, 0, 4, 2, 5]),
        (15, &[3, 0, 4, 2, 5]),
        (7, &[7]),
        (1, &[]),
        (5, &[9, 1, 0, 5, 1, 1]),
    ];
    for (reference, co2) in lanes {
        let mut state = SweepState::default();
        for budget in 0..=2 * co2.len() as u64 + 1 {
            let beginning = SweepState::default();
            sweep(all, reference, co2, beginning, budget);
            sweep(all, reference, co2, state, 1);
            sweep(all, reference, co2, state, u64::MAX);
            altered(all, reference, co2, state);
            let mut ends = vec![0; co2.len()];
            state = library::sweep(reference, co2, &mut ends, state, 1).state;
        }
    }
}

fn sweep(all: &mut Chosen, reference: u32, co2: &[u32], state: SweepState, budget: u64) {
    let input = SweepInput {
        reference,
        co2: co2.to_vec(),
        places: co2.len() + 1,
        state,
        budget,
    };
    all.add("sweep", Case::Sweep(input));
}

/// The state with one member moved by one.
fn altered(all: &mut Chosen, reference: u32, co2: &[u32], state: SweepState) {
    for step in [1, u64::MAX] {
        let moved = |number: u64| number.wrapping_add(step);
        let with = [
            SweepState {
                taken: moved(state.taken),
                ..state
            },
            SweepState {
                dropped: moved(state.dropped),
                ..state
            },
            SweepState {
                mass: moved(state.mass),
                ..state
            },
            SweepState {
                moves: moved(state.moves),
                ..state
            },
        ];
        for state in with {
            sweep(all, reference, co2, state, 2);
        }
    }
}

fn measured(speed: u16) -> Second {
    Second {
        state: 1,
        speed,
        altitude: 0,
        co2: 0,
        nox: 0,
    }
}

/// Every second of small trips with gaps and checks, and the indices past the end.
fn d(all: &mut Chosen) {
    let gap = Second {
        state: 2,
        ..measured(500)
    };
    let check = Second {
        state: 3,
        ..measured(700)
    };
    let trips = [
        vec![measured(1_000), measured(2_000), measured(1_500)],
        vec![
            measured(800),
            gap,
            measured(900),
            check,
            measured(1_000),
            gap,
        ],
        vec![gap, check, measured(100), measured(173), measured(172)],
        vec![measured(40)],
        vec![gap, gap],
    ];
    for seconds in trips {
        for index in (0..seconds.len() + 2).chain([usize::MAX]) {
            let trip = Lanes::of(&seconds);
            all.add("D", Case::D { trip, index });
        }
    }
}

/// 99 to 201 products, each step of the remainder, in any order, with the largest and the smallest.
fn percentiles(all: &mut Chosen, random: &mut Random) {
    for count in [99, 100, 101, 102, 119, 120, 139, 180, 199, 200, 201] {
        for kind in 0..3 {
            let product = |k: u32, random: &mut Random| match kind {
                0 => count as u32 - k,
                1 => 1_000 * k % 7_001,
                _ => random.below(625_000_001) as u32,
            };
            let products = (0..count as u32).map(|k| product(k, random)).collect();
            let places = count + kind;
            all.add("percentile", Case::Percentile { products, places });
        }
    }
    for largest in [624_999_999, 625_000_000, 625_000_001] {
        let mut products = vec![0; 100];
        products[50] = largest;
        let places = 100;
        all.add("percentile", Case::Percentile { products, places });
    }
}

/// Figures on each line of too lively and too dull, on either side of each turn, of any size.
fn dynamics(all: &mut Chosen) {
    let mut add = |s: i128, n: i128, x: i128| {
        let (Ok(s), Ok(n), Ok(x)) = (s.try_into(), n.try_into(), x.try_into()) else {
            return;
        };
        all.add("lively and dull", Case::Dynamics { s, n, x });
    };
    for n in [1i128, 7, 900, 1_000_003, 4_294_967_295] {
        for mean in [0, 3_000, 7_459, 7_460, 7_461, 9_404, 9_405, 9_406, 13_000] {
            for s in [mean * n - 1, mean * n, mean * n + 1, mean * n + n / 2] {
                let slow = (176_256 * s + 1_871_424_000 * n) / (5 * n);
                let fast = (480_816 * s + 12_289_968_000 * n) / (25 * n);
                let dull = (394_875 * s * n - 36 * s * s) / (3_125 * n);
                for border in [slow, fast, dull, 18 * s] {
                    for step in -1..=1 {
                        add(s, n, border + step);
                    }
                }
            }
        }
    }
    for x in [u64::MAX, u64::MAX - 1, 1 << 63, 1 << 40] {
        for (s, n) in [(1, 1), (u32::MAX, 1), (1, u32::MAX), (u32::MAX, u32::MAX)] {
            add(s.into(), n.into(), x.into());
        }
    }
}

fn window(all: &mut Chosen, plan: Plan, s: i128, m: i128, n: i128) {
    // a window has at least 1 mg
    let sums = (u32::try_from(s), u32::try_from(m.max(1)));
    if let (Ok(s), Ok(m)) = sums {
        let n = n as usize;
        all.add("window", Case::Window { plan, s, m, n });
    }
}

/// Means on each border of the classes and of the curve and between them, masses on each end of the
/// band.
fn windows(all: &mut Chosen) {
    let plans = [
        plan_with([200_000, 140_000, 160_000], 25, [45, 40, 35]),
        plan_with([140_000, 200_000, 90_000], 0, [0, 10, 20]),
        plan_with([1, 2_000_000, 1], 100, [100, 0, 50]),
        plan_with([2_000_000, 1, 1], 50, [50, 25, 0]),
        plan_with([150_000, 150_000, 150_000], 20, [20, 40, 60]),
    ];
    let means = [
        100, 18_881, 18_882, 18_883, 30_000, 37_773, 44_999, 45_000, 45_001, 56_663, 56_664,
        56_665, 56_666, 79_999, 80_000, 80_001, 92_000, 144_999, 145_000, 145_001,
    ];
    for plan in plans {
        for v in means {
            for n in [10i128, 60, 997] {
                for s in [v * n / 10, v * n / 10 + 1, (v * n + n - 1) / 10] {
                    on_the_band(all, plan, s, n);
                }
            }
        }
    }
    at_ends(all);
    at_zero(all);
    of_any_size(all);
}

/// The masses at which a window of these sums comes inside and leaves the band.
fn on_the_band(all: &mut Chosen, plan: Plan, s: i128, n: i128) {
    for percent in percentages(&plan, s, n) {
        let m = last_mass_at(&plan, percent, s, n);
        for m in [m - 1, m, m + 1] {
            window(all, plan, s, m, n);
        }
    }
}

/// Windows for which the products of a comparison are equal, on either line, and one mg either side;
/// mean, curve and figure are whole, sevenths or elevenths.
fn at_ends(all: &mut Chosen) {
    for percent in [50, 75, 100, 125, 150, 200] {
        for (parts, length) in [(1, 400), (1, 600), (7, 16), (7, 10), (11, 8), (11, 4)] {
            for rise in [-2, 0, 1] {
                let recipe = Recipe {
                    percent,
                    parts,
                    length,
                    times: 1,
                    e2: 150_000,
                    rise,
                    other: 90_000,
                    tolerance: 100,
                };
                let Some(OnAnEnd { plan, s, m, n, .. }) = recipe.window() else {
                    continue;
                };
                for m in [m - 1, m, m + 1] {
                    window(all, plan, s.into(), m.into(), n as i128);
                }
            }
        }
    }
}

/// A curve that is 0 at 96,664, there, just before and just after it.
fn at_zero(all: &mut Chosen) {
    for lower in [25, 100] {
        let falling = plan_with([100_000, 40_000, 4_667], lower, [45, 40, 35]);
        for s in [96_663, 96_664, 96_665] {
            window(all, falling, s, 1, 10);
            window(all, falling, 100 * s, 1, 1_000);
        }
        for s in [9_666_399, 9_666_401] {
            window(all, falling, s, 1, 1_000);
        }
    }
}

/// Sums that no trip has.
fn of_any_size(all: &mut Chosen) {
    let most = i128::from(u32::MAX);
    let plan = plan_with([2_000_000, 1, 2_000_000], 0, [100; 3]);
    for n in [1, 8_192, 8_193, 32_767, 32_768] {
        for s in [1, 6_000 * n, 12_000 * n, most] {
            on_the_band(all, plan, s, n);
            window(all, plan, s, 1, n);
            window(all, plan, s, most, n);
        }
    }
}
