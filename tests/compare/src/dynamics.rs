//! D of one second, and the percentile of products.

use crate::account::{Account, Comparison};
use crate::case::Case;
use crate::lanes::Lanes;
use crate::random::Random;
use crate::trips;

const LIMIT: usize = 8_192;

pub fn compare(account: &mut Account) {
    let seed = account.seed;
    account.compare("D, every second of small trips", |c| every_second(c, seed));
    account.compare("D, every refusal and pairs of them", |c| refusals(c, seed));
    account.compare("percentile, products in any order", |c| {
        percentiles(c, seed)
    });
    account.compare("percentile, every refusal and pairs of them", |c| {
        refused_percentiles(c, seed)
    });
}

fn d(comparison: &mut Comparison, trip: &Lanes, index: usize) {
    let trip = trip.clone();
    comparison.case(&Case::D { trip, index });
}

fn every_second(comparison: &mut Comparison, seed: u64) {
    let mut random = Random::new(seed ^ 31);
    for round in 0..12_000 {
        let trip = Lanes::of(&trips::small(&mut random, round % 9));
        for index in 0..trip.states.len() + 2 {
            d(comparison, &trip, index);
        }
        d(comparison, &trip, usize::MAX);
    }
}

fn refusals(comparison: &mut Comparison, seed: u64) {
    let mut random = Random::new(seed ^ 32);
    for faults in 0..16u32 {
        for _ in 0..60 {
            let n = if faults & 2 > 0 {
                LIMIT + 1
            } else {
                1 + random.below(9) as usize
            };
            let mut trip = Lanes::of(&trips::small(&mut random, n));
            if faults & 4 > 0 {
                trip.spoil(&mut random);
            }
            if faults & 8 > 0 {
                trip.states.iter_mut().for_each(|state| *state = 2);
            }
            if faults & 1 > 0 {
                trip.shorten(&mut random);
            }
            let index = random.below(n as u64 + 3) as usize;
            d(comparison, &trip, index);
        }
    }
}

fn percentile(comparison: &mut Comparison, products: &[u32], places: usize) {
    let products = products.to_vec();
    comparison.case(&Case::Percentile { products, places });
}

/// Products of several characters: random, few values, ascending, descending, equal.
fn products(random: &mut Random, n: usize) -> Vec<u32> {
    let most = [1, 7, 1_000, 625_000_000][random.below(4) as usize];
    let mut values: Vec<u32> = (0..n).map(|_| random.below(most + 1) as u32).collect();
    match random.below(5) {
        0 => values.sort_unstable(),
        1 => values.sort_unstable_by(|a, b| b.cmp(a)),
        _ => {}
    }
    values
}

fn percentiles(comparison: &mut Comparison, seed: u64) {
    let mut random = Random::new(seed ^ 33);
    for round in 0..4_000 {
        let n = match round % 8 {
            0 => LIMIT - random.below(3) as usize,
            1 => random.below(LIMIT as u64) as usize,
            _ => 95 + random.below(130) as usize,
        };
        let values = products(&mut random, n);
        percentile(comparison, &values, n + random.below(3) as usize);
    }
}

fn refused_percentiles(comparison: &mut Comparison, seed: u64) {
    let mut random = Random::new(seed ^ 34);
    for faults in 0..16u32 {
        for _ in 0..30 {
            let n = match (faults & 1 > 0, faults & 2 > 0) {
                (true, _) => LIMIT + 1,
                (_, true) => random.below(100) as usize,
                _ => 100 + random.below(60) as usize,
            };
            let mut values = products(&mut random, n);
            if faults & 8 > 0 && n > 0 {
                let at = random.below(n as u64) as usize;
                values[at] = [625_000_001, u32::MAX][random.below(2) as usize];
            }
            let places = if faults & 4 > 0 {
                random.below(n as u64 + 1) as usize
            } else {
                n
            };
            percentile(comparison, &values, places);
        }
    }
}
