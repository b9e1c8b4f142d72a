//! The whole sweep of a full trip.

use library::{SweepAnswer, SweepState};

use crate::timing::{against, Growth};

const REFERENCE: u32 = 1_200_000;

pub fn bench() -> Growth {
    let [small, large] = [1_024, 8_192].map(|kept| {
        let co2 = masses(kept);
        let mut ours = vec![0u16; kept];
        let mut theirs = vec![0u16; kept];
        let took = against(
            &format!("50 sweeps of {kept} kept seconds"),
            || {
                (0..50)
                    .map(|_| {
                        folded(library::sweep(
                            REFERENCE,
                            &co2,
                            &mut ours,
                            SweepState::default(),
                            u64::MAX,
                        ))
                    })
                    .sum()
            },
            || {
                (0..50)
                    .map(|_| {
                        folded(plain(
                            REFERENCE,
                            &co2,
                            &mut theirs,
                            SweepState::default(),
                            u64::MAX,
                        ))
                    })
                    .sum()
            },
        );
        assert_eq!(ours, theirs);
        took
    });
    Growth {
        work: "a sweep",
        small,
        large,
    }
}

/// CO2 of a car in traffic: idle, cruise and bursts, mg in the second.
fn masses(kept: usize) -> Vec<u32> {
    let mut state = 2017_1151u64;
    (0..kept)
        .map(|_| {
            state = state
                .wrapping_mul(6_364_136_223_846_793_005)
                .wrapping_add(1_442_695_040_888_963_407);
            300 + (state >> 33) as u32 % 1_400
        })
        .collect()
}

fn folded(answer: SweepAnswer) -> u64 {
    answer.moves + answer.state.mass + u64::from(answer.refusal)
}

/// The sweep in plain Rust: the same refusals, then the moves.
#[inline(never)]
fn plain(
    reference: u32,
    co2: &[u32],
    ends: &mut [u16],
    state: SweepState,
    budget: u64,
) -> SweepAnswer {
    let refused = |refusal, place| SweepAnswer {
        refusal,
        place,
        ..SweepAnswer::default()
    };
    if !(1..=20_000_000).contains(&reference) {
        return refused(5, 0);
    }
    if co2.len() > 8_192 {
        return refused(2, 0);
    }
    if ends.len() < co2.len() {
        return refused(6, 0);
    }
    if let Some(bad) = co2.iter().position(|&mass| mass > 100_000) {
        return refused(3, bad);
    }
    if !reached(reference, co2, state) {
        return refused(13, 0);
    }
    let mut now = state;
    let mut left = budget;
    let over = loop {
        let closing = now.mass >= u64::from(reference);
        if !closing && now.taken as usize >= co2.len() {
            break true;
        }
        if left == 0 {
            break false;
        }
        if closing {
            let first = now.dropped as usize;
            ends[first] = now.taken as u16;
            now.mass -= u64::from(co2[first]);
            now.dropped += 1;
        } else {
            now.mass += u64::from(co2[now.taken as usize]);
            now.taken += 1;
        }
        now.moves += 1;
        left -= 1;
    };
    SweepAnswer {
        refusal: 0,
        place: 0,
        state: now,
        moves: now.moves - state.moves,
        over,
    }
}

fn reached(reference: u32, co2: &[u32], state: SweepState) -> bool {
    let SweepState {
        taken,
        dropped,
        mass,
        moves,
    } = state;
    if taken > co2.len() as u64 || dropped > taken || moves != taken + dropped {
        return false;
    }
    let (first, end) = (dropped as usize, taken as usize);
    let reference = u64::from(reference);
    mass == co2[first..end].iter().map(|&m| u64::from(m)).sum::<u64>()
        && (first == 0 || mass + u64::from(co2[first - 1]) >= reference)
        && (end == 0 || mass < reference + u64::from(co2[end - 1]))
}
