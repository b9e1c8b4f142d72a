//! Whole trips: the answer, the verdict and every place of the four lent lanes.

use oracle::second::Second;

use crate::account::{Account, Comparison};
use crate::borders::pairs;
use crate::case::{Case, TripInput};
use crate::chosen::both_sides;
use crate::lanes::Lanes;
use crate::random::Random;
use crate::trips;

const LIMIT: usize = 8_192;

pub fn compare(account: &mut Account) {
    let seed = account.seed;
    account.compare("trip, small ones of any character", |c| small(c, seed));
    account.compare("trip, realistic ones", |c| realistic(c, seed));
    account.compare(
        "trip, realistic ones with a reason brought in or taken away",
        |c| bent(c, seed),
    );
    account.compare("trip, both sides of each border, one bit apart", borders);
    account.compare("trip, full length and extreme", |c| extreme(c, seed));
    account.compare("trip, every refusal and pairs of them", |c| {
        refusals(c, seed)
    });
}

/// One evaluation on both sides; gives the library's verdict.
fn evaluate(
    comparison: &mut Comparison,
    plan: &oracle::Plan,
    trip: &Lanes,
    places: [usize; 4],
) -> u16 {
    let answer = comparison.case(&Case::Trip(TripInput {
        plan: *plan,
        trip: trip.clone(),
        places,
        printed: false,
    }));
    answer.verdict().unwrap_or(0)
}

fn judged(comparison: &mut Comparison, plan: &oracle::Plan, seconds: &[Second]) -> u16 {
    let n = seconds.len();
    evaluate(comparison, plan, &Lanes::of(seconds), [n; 4])
}

fn small(comparison: &mut Comparison, seed: u64) {
    let mut random = Random::new(seed ^ 51);
    for round in 0..100_000u64 {
        let n = if round % 50 == 0 {
            random.below(600)
        } else {
            random.below(24)
        } as usize;
        let plan = trips::plan(&mut random);
        let trip = Lanes::of(&trips::small(&mut random, n));
        let places = [0; 4].map(|_: usize| n + random.below(3) as usize);
        evaluate(comparison, &plan, &trip, places);
    }
}

fn realistic(comparison: &mut Comparison, seed: u64) {
    let mut random = Random::new(seed ^ 52);
    let mut valid = 0;
    for _ in 0..1_000 {
        let (plan, seconds) = trips::realistic(&mut random);
        valid += u64::from(judged(comparison, &plan, &seconds) == 0);
    }
    comparison.same(valid > 50, true, || {
        format!("only {valid} of 1,000 are valid")
    });
}

/// Realistic trips changed so that some reason comes or goes.
fn bent(comparison: &mut Comparison, seed: u64) {
    let mut random = Random::new(seed ^ 53);
    for _ in 0..300 {
        let (plan, mut seconds) = trips::realistic(&mut random);
        let plan = trips::bend(&mut random, plan, &mut seconds);
        judged(comparison, &plan, &seconds);
    }
}

/// Both sides of each border: they differ in the one reason alone, or in a figure and no reason.
fn borders(comparison: &mut Comparison) {
    for pair in pairs() {
        let (reason, besides, fewer) = (pair.reason, pair.besides, pair.fewer_inside);
        let [within, beyond] = both_sides(pair);
        let [first, second] = [&within, &beyond].map(|side| comparison.case(&side.case));
        if let Some(fewer) = fewer {
            comparison.same(first.inside(), second.inside() + fewer, || {
                format!("windows inside: {} and {}", within.name, beyond.name)
            });
        }
        let verdicts = (first.verdict(), second.verdict());
        let wanted = match reason {
            Some(bit) => (Some(besides), Some(besides | 1 << bit)),
            None => (Some(besides), Some(besides)),
        };
        comparison.same((verdicts, first != second), (wanted, true), || {
            format!("{} and {}", within.name, beyond.name)
        });
    }
}

/// Full lanes of one character: fastest, highest, heaviest, all check, steps up and down.
fn extreme(comparison: &mut Comparison, seed: u64) {
    let mut random = Random::new(seed ^ 54);
    for round in 0..12 {
        let plan = trips::plan(&mut random);
        let seconds = trips::uniform(LIMIT, round);
        judged(comparison, &plan, &seconds);
    }
    for _ in 0..20 {
        let plan = trips::plan(&mut random);
        let seconds = trips::small(&mut random, LIMIT);
        judged(comparison, &plan, &seconds);
    }
}

fn refusals(comparison: &mut Comparison, seed: u64) {
    let mut random = Random::new(seed ^ 55);
    for faults in 0..64u32 {
        for _ in 0..25 {
            let n = if faults & 4 > 0 {
                LIMIT + 1
            } else {
                1 + random.below(9) as usize
            };
            let mut plan = trips::plan(&mut random);
            let mut trip = Lanes::of(&trips::small(&mut random, n));
            let mut places = [n; 4];
            if faults & 1 > 0 {
                plan.lower = 101;
            }
            if faults & 16 > 0 {
                trip.spoil(&mut random);
            }
            if faults & 32 > 0 {
                trip.states.iter_mut().for_each(|state| *state = 2);
            }
            if faults & 2 > 0 {
                trip.shorten(&mut random);
            }
            if faults & 8 > 0 {
                places[random.below(4) as usize] = random.below(n as u64) as usize;
            }
            evaluate(comparison, &plan, &trip, places);
        }
    }
    evaluate(
        comparison,
        &trips::plan(&mut random),
        &Lanes::default(),
        [0; 4],
    );
}
