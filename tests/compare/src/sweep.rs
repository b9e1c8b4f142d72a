//! The sweep: cut by budgets, resumed, and asked from states that it never reaches.

use library::{SweepAnswer, SweepState};

use crate::account::{Account, Comparison};
use crate::case::{Answer, Case, SweepInput};
use crate::random::Random;

const LIMIT: usize = 8_192;

const BEGINNING: SweepState = SweepState {
    taken: 0,
    dropped: 0,
    mass: 0,
    moves: 0,
};

pub fn compare(account: &mut Account) {
    let seed = account.seed;
    account.compare(
        "sweep, every budget of small sweeps, resumed to the end",
        |c| every_budget(c, seed),
    );
    account.compare("sweep, large sweeps cut at random and resumed", |c| {
        large(c, seed)
    });
    account.compare("sweep, states altered in each field", |c| altered(c, seed));
    account.compare("sweep, every refusal and pairs of them", |c| {
        refusals(c, seed)
    });
}

/// One call on both sides: the answer and every place of the lane.
fn call(
    comparison: &mut Comparison,
    reference: u32,
    co2: &[u32],
    places: usize,
    state: SweepState,
    budget: u64,
) -> SweepAnswer {
    let answer = comparison.case(&Case::Sweep(SweepInput {
        reference,
        co2: co2.to_vec(),
        places,
        state,
        budget,
    }));
    match answer {
        Answer::Sweep(answer, _) => answer,
        other => panic!("no answer of the sweep: {other:?}"),
    }
}

/// Kept masses of several characters: zeros, one huge, even, wild, never enough, at once.
fn masses(random: &mut Random, n: usize) -> (u32, Vec<u32>) {
    let most = *[1u64, 3, 10, 100, 5_000, 100_000]
        .get(random.below(6) as usize)
        .expect("six choices");
    let mut co2: Vec<u32> = (0..n).map(|_| random.below(most + 1) as u32).collect();
    match random.below(5) {
        0 => co2
            .iter_mut()
            .for_each(|m| *m *= u32::from(*m as u64 > most / 2)),
        1 if n > 0 => co2[random.below(n as u64) as usize] = 100_000,
        2 => co2.iter_mut().for_each(|m| *m = 0),
        _ => {}
    }
    let sum: u64 = co2.iter().map(|&m| u64::from(m)).sum();
    let reference = match random.below(6) {
        0 => 1,
        1 => sum.clamp(1, 20_000_000),
        2 => (sum + 1).clamp(1, 20_000_000),
        _ => 1 + random.below((sum / 2).clamp(1, 20_000_000)),
    };
    (reference as u32, co2)
}

fn every_budget(comparison: &mut Comparison, seed: u64) {
    let mut random = Random::new(seed ^ 11);
    for round in 0..1_500 {
        let (reference, co2) = masses(&mut random, round % 13);
        for budget in 0..=2 * co2.len() as u64 + 2 {
            let places = co2.len() + 2;
            let first = call(comparison, reference, &co2, places, BEGINNING, budget);
            call(comparison, reference, &co2, places, first.state, u64::MAX);
            call(comparison, reference, &co2, places, first.state, 1);
        }
    }
}

fn large(comparison: &mut Comparison, seed: u64) {
    let mut random = Random::new(seed ^ 12);
    for round in 0..60 {
        let n = if round % 4 == 0 {
            LIMIT
        } else {
            random.below(LIMIT as u64) as usize
        };
        let (reference, co2) = masses(&mut random, n);
        let mut state = BEGINNING;
        loop {
            let budget = random.below(n as u64 + 2);
            let answer = call(comparison, reference, &co2, n, state, budget);
            state = answer.state;
            if answer.over {
                break;
            }
        }
    }
}

/// A state that is reached, and the same with one field moved a little or far.
fn altered(comparison: &mut Comparison, seed: u64) {
    let mut random = Random::new(seed ^ 13);
    for _ in 0..3_000 {
        let n = random.below(20) as usize;
        let (reference, co2) = masses(&mut random, n);
        let budget = random.below(2 * n as u64 + 2);
        let state = library::sweep(reference, &co2, &mut vec![0; n], BEGINNING, budget).state;
        for field in 0..4 {
            for change in [1, u64::MAX, 2, 1 << 32, random.bits(), random.below(40)] {
                let mut other = state;
                let place = match field {
                    0 => &mut other.taken,
                    1 => &mut other.dropped,
                    2 => &mut other.mass,
                    _ => &mut other.moves,
                };
                *place = place.wrapping_add(change);
                call(comparison, reference, &co2, n, other, random.below(5));
            }
        }
        let wild = SweepState {
            taken: random.below(n as u64 + 2),
            dropped: random.below(n as u64 + 2),
            mass: random.below(200_000),
            moves: random.below(2 * n as u64 + 2),
        };
        call(comparison, reference, &co2, n, wild, 3);
    }
}

fn refusals(comparison: &mut Comparison, seed: u64) {
    let mut random = Random::new(seed ^ 14);
    for faults in 0..32u32 {
        for _ in 0..20 {
            let n = if faults & 2 > 0 {
                LIMIT + 1
            } else {
                1 + random.below(30) as usize
            };
            let (mut reference, mut co2) = masses(&mut random, n);
            let mut room = n;
            let mut state = BEGINNING;
            if faults & 1 > 0 {
                reference = [0, 20_000_001, u32::MAX][random.below(3) as usize];
            }
            if faults & 4 > 0 {
                room = random.below(n as u64) as usize;
            }
            if faults & 8 > 0 {
                let at = random.below(n as u64) as usize;
                co2[at] = [100_001, u32::MAX][random.below(2) as usize];
            }
            if faults & 16 > 0 {
                state.moves = 1 + random.below(3);
            }
            call(comparison, reference, &co2, room, state, 7);
        }
    }
}
