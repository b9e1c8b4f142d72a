//! Leaves that a trip reaches only with small figures, asked with figures of any size: the exact
//! comparisons of the dynamics, whose products pass 64 bits, and the judgement of one window.

use oracle::Plan;

use crate::account::{Account, Comparison};
use crate::case::{Answer, Case, WINDOW_MOST};
use crate::ends::{last_mass_at, percentages, plan_with, Recipe};
use crate::random::Random;
use crate::trips;

pub fn compare(account: &mut Account) {
    let seed = account.seed;
    account.compare("too lively and too dull, figures of any size", |c| {
        any_size(c, seed)
    });
    account.compare("too lively and too dull, both sides of each turn", |c| {
        turns(c, seed)
    });
    account.compare("windows, on the borders of classes and bands", |c| {
        borders(c, seed)
    });
    account.compare("windows, exactly at an end of the band", |c| {
        at_ends(c, seed)
    });
    account.compare("windows, both sides of the turn of the curve", |c| {
        turn_of_the_curve(c, seed)
    });
    account.compare("windows, curves of zero and below", |c| zeros(c, seed));
    account.compare("windows, any figures and plans", |c| any_window(c, seed));
    account.compare("windows that are none, and plans out of range", |c| {
        not_judged(c, seed)
    });
}

fn both(comparison: &mut Comparison, s: u32, n: u32, x: u64) {
    comparison.case(&Case::Dynamics { s, n, x });
}

/// A number of any size: few or many digits, or at an end.
fn sized(random: &mut Random, bits: u32) -> u64 {
    let most = u64::MAX >> (64 - bits);
    match random.below(10) {
        0 => most,
        1 => 0,
        2 => most - random.below(3),
        _ => random.bits() >> (64 - bits) >> random.below(u64::from(bits)),
    }
}

fn any_size(comparison: &mut Comparison, seed: u64) {
    let mut random = Random::new(seed ^ 41);
    for _ in 0..400_000 {
        let (s, n) = (sized(&mut random, 32) as u32, sized(&mut random, 32) as u32);
        both(comparison, s, n, sized(&mut random, 64));
        // near the border: the Q or T at which the comparison turns
        let (ps, pn) = (i128::from(s), i128::from(n).max(1));
        let lively = if ps <= 7_460 * pn {
            (176_256 * ps + 1_871_424_000 * pn) / (5 * pn)
        } else {
            (480_816 * ps + 12_289_968_000 * pn) / (25 * pn)
        };
        let dull = if ps <= 9_405 * pn {
            (394_875 * ps * pn - 36 * ps * ps) / (3_125 * pn)
        } else {
            18 * ps
        };
        for border in [lively, dull] {
            for step in -1..=1 {
                if let Ok(x) = u64::try_from(border + step) {
                    both(comparison, s, n, x);
                }
            }
        }
    }
}

/// Means 7,460 and 9,405, where the lines change without meeting.
fn turns(comparison: &mut Comparison, seed: u64) {
    let mut random = Random::new(seed ^ 42);
    for _ in 0..20_000 {
        let n = 1 + random.below(400_000) as u32;
        for mean in [7_460u32, 9_405] {
            for step in [-1i64, 0, 1] {
                let s = (i64::from(mean) * i64::from(n) + step) as u32;
                let far = sized(&mut random, 64);
                both(comparison, s, n, far);
                let near = 18 * u64::from(s) + random.below(3);
                both(comparison, s, n, near);
            }
        }
    }
}

/// One window on both sides; says whether it is inside.
fn judged(comparison: &mut Comparison, plan: &Plan, s: u32, m: u32, n: usize) -> bool {
    let plan = *plan;
    let answer = comparison.case(&Case::Window { plan, s, m, n });
    matches!(answer, Answer::Window(window) if window.inside)
}

/// Masses next to each end of the band of a window.
fn around_the_ends(comparison: &mut Comparison, plan: &Plan, s: u32, n: usize) {
    let sums = (i128::from(s), n as i128);
    for percent in percentages(plan, sums.0, sums.1) {
        let m = last_mass_at(plan, percent, sums.0, sums.1);
        for step in -1..=2 {
            if let Ok(m) = u32::try_from(m + step) {
                judged(comparison, plan, s, m, n);
            }
        }
    }
}

/// Means at each class's border and at the turn of the curve, masses at each end of the band.
fn borders(comparison: &mut Comparison, seed: u64) {
    let mut random = Random::new(seed ^ 43);
    for _ in 0..20_000 {
        let plan = trips::plan(&mut random);
        let most = [60, 8_192, WINDOW_MOST][random.below(3) as usize];
        let n = 1 + random.below(most);
        let v = [
            18_882u64,
            45_000,
            56_664,
            80_000,
            145_000,
            1_000 + random.below(140_000),
        ][random.below(6) as usize];
        for near in 0..3 {
            let s = ((v * n) / 10 + near).max(1) as u32;
            around_the_ends(comparison, &plan, s, n as usize);
        }
    }
}

/// Windows for which the products of a comparison are equal: they are inside, one mg further they are
/// not.
fn at_ends(comparison: &mut Comparison, seed: u64) {
    let mut random = Random::new(seed ^ 46);
    let mut found = 0;
    while found < 5_000 {
        let recipe = Recipe::any(&mut random);
        let Some(window) = recipe.window() else {
            continue;
        };
        found += 1;
        let (plan, s, n) = (&window.plan, window.s, window.n);
        let masses = [window.m, window.beyond];
        let inside = masses.map(|m| judged(comparison, plan, s, m, n));
        comparison.same(inside, [true, false], || format!("{recipe:?}"));
        // one mg the other way: still inside, unless the band has no width
        let [m, beyond] = masses.map(i64::from);
        judged(comparison, plan, s, (2 * m - beyond) as u32, n);
    }
}

/// Means just below 56,664, at it, between it and 56,665, at that, and beyond.
fn turn_of_the_curve(comparison: &mut Comparison, seed: u64) {
    let mut random = Random::new(seed ^ 47);
    for round in 0..3_000 {
        let plan = trips::plan(&mut random);
        let any = 5 + random.below(WINDOW_MOST - 4);
        // a length that 5 divides has a sum with just the mean 56,664
        let n = if round % 2 == 0 { any / 5 * 5 } else { any };
        let (first, last) = (56_664 * n / 10, 56_665 * n / 10);
        let between = first + random.below(last - first + 1);
        for s in [first - 1, first, first + 1, between, last, last + 1] {
            around_the_ends(comparison, &plan, s as u32, n as usize);
        }
    }
}

/// A plan whose curve is 0 at a mean, which is given too.
fn with_a_zero(random: &mut Random) -> (Plan, u64) {
    let slope = 1 + random.below(20) as u32;
    let other = 1 + random.below(2_000_000) as u32;
    let mut none_or_all = || [0, 100][random.below(2) as usize];
    let upper = [(); 3].map(|()| none_or_all());
    let lower = none_or_all();
    if random.below(2) == 0 {
        // rising from 0, below 18,882
        let before = 1 + random.below(18_000) as u32;
        let e1 = slope * before;
        let plan = plan_with([e1, e1 + slope * 37_782, other], lower, upper);
        (plan, u64::from(18_882 - before))
    } else {
        // falling to 0, beyond 91,997
        let after = 35_334 + random.below(53_000) as u32;
        let e2 = slope * after;
        let plan = plan_with([other, e2, e2 - slope * 35_333], lower, upper);
        (plan, u64::from(56_664 + after))
    }
}

/// Means at which the curve is 0 and next to them, masses from the smallest on.
fn zeros(comparison: &mut Comparison, seed: u64) {
    let mut random = Random::new(seed ^ 48);
    for _ in 0..3_000 {
        let (plan, v) = with_a_zero(&mut random);
        let n = 10 * (1 + random.below(WINDOW_MOST / 10));
        for s in [v * n / 10 - 1, v * n / 10, v * n / 10 + 1] {
            let (s, n) = (s as u32, n as usize);
            for m in [1, 2, 1 + random.below(1_000) as u32] {
                judged(comparison, &plan, s, m, n);
            }
            around_the_ends(comparison, &plan, s, n);
        }
    }
}

/// Sums that a trip can have, and sums of any size.
fn any_window(comparison: &mut Comparison, seed: u64) {
    let mut random = Random::new(seed ^ 44);
    for _ in 0..300_000 {
        let plan = trips::plan(&mut random);
        let n = 1 + random.below(WINDOW_MOST);
        let s = 1 + random.below(25_000 * n) as u32;
        let m = sized(&mut random, 32) as u32;
        judged(comparison, &plan, s, m, n as usize);
        let s = sized(&mut random, 32) as u32;
        let n = sized(&mut random, 15) as usize + random.below(2) as usize;
        judged(comparison, &plan, s, m, n);
        around_the_ends(comparison, &plan, s.max(1), n.max(1));
    }
}

/// No seconds, one too many, no speed, no mass, and each value of the plan out of range.
fn not_judged(comparison: &mut Comparison, seed: u64) {
    let mut random = Random::new(seed ^ 49);
    let most = WINDOW_MOST as usize;
    for _ in 0..500 {
        let plan = trips::plan(&mut random);
        let s = 1 + random.below(200_000_000) as u32;
        let m = 1 + random.below(20_000_000) as u32;
        for n in [0, 1, most - 1, most, most + 1, 2 * most, usize::MAX] {
            for (s, m) in [(s, m), (0, m), (s, 0), (0, 0), (u32::MAX, u32::MAX)] {
                judged(comparison, &plan, s, m, n);
            }
        }
        for spoiled in spoiled(plan) {
            judged(comparison, &spoiled, s, m, 8_000);
            judged(comparison, &spoiled, 0, 0, 0);
        }
    }
}

/// The plan with one of its values just out of range, each in turn.
fn spoiled(plan: Plan) -> Vec<Plan> {
    let mut all = Vec::new();
    let mut add = |change: &dyn Fn(&mut Plan)| {
        let mut spoiled = plan;
        change(&mut spoiled);
        all.push(spoiled);
    };
    for reference in [0, 20_000_001] {
        add(&|plan| plan.reference = reference);
    }
    for e in [0, 2_000_001] {
        add(&|plan| plan.e1 = e);
        add(&|plan| plan.e2 = e);
        add(&|plan| plan.e3 = e);
    }
    for class in 0..3 {
        add(&|plan| plan.upper[class] = 101);
    }
    add(&|plan| plan.lower = 101);
    all
}
