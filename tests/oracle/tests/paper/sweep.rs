//! The sweep, against windows found by adding.

use crate::as_it_stands::{end_number, sweep, windows};
use crate::build::{refused, GUARD_16};
use crate::random::Random;
use oracle::windows::{SweepAnswer, SweepState};

const BEGIN: SweepState = SweepState {
    taken: 0,
    dropped: 0,
    mass: 0,
    moves: 0,
};

/// The states of a sweep, from the windows found by adding: for each window, take up to its last
/// second, then drop its first; then take what is left.
fn states_by_adding(masses: &[u32], reference: u32) -> Vec<SweepState> {
    let mut steps = Vec::new();
    let mut taken = 0;
    for (first, last) in windows(masses, reference) {
        for next in taken..=last {
            steps.push((next + 1, first));
        }
        taken = last + 1;
        steps.push((taken, first + 1));
    }
    let dropped = steps.last().map_or(0, |&(_, dropped)| dropped);
    for next in taken..masses.len() {
        steps.push((next + 1, dropped));
    }
    let mut states = vec![BEGIN];
    for (index, (taken, dropped)) in steps.into_iter().enumerate() {
        states.push(SweepState {
            taken: taken as u64,
            dropped: dropped as u64,
            mass: masses[dropped..taken].iter().map(|&m| u64::from(m)).sum(),
            moves: index as u64 + 1,
        });
    }
    states
}

/// The lane of ends, from the windows found by adding, of those whose first second is before
/// `dropped` and not before `from`; other places hold the guard.
fn ends_by_adding(masses: &[u32], reference: u32, from: u64, dropped: u64) -> Vec<u16> {
    let mut ends = vec![GUARD_16; masses.len() + 1];
    for (first, last) in windows(masses, reference) {
        if (from..dropped).contains(&(first as u64)) {
            ends[first] = end_number(last);
        }
    }
    ends
}

/// Small masses, zeros among them, and a reference that a few of them reach.
fn small_case(random: &mut Random) -> (Vec<u32>, u32) {
    let count = random.between(0, 9);
    let masses = (0..count)
        .map(|_| random.between(-2, 6).max(0) as u32)
        .collect();
    (masses, random.between(1, 20) as u32)
}

#[test]
fn a_sweep_to_its_end_writes_the_windows() {
    let mut random = Random::seeded(4);
    for _ in 0..3_000 {
        let (masses, reference) = small_case(&mut random);
        let mut ends = vec![GUARD_16; masses.len() + 1];
        let answer = sweep(&masses, &mut ends, reference, BEGIN, u64::MAX).unwrap();
        let last = *states_by_adding(&masses, reference).last().unwrap();
        let count = windows(&masses, reference).len() as u64;
        assert_eq!(
            answer,
            SweepAnswer {
                state: last,
                moves: last.moves
            }
        );
        assert_eq!(answer.moves, masses.len() as u64 + count);
        assert_eq!(ends, ends_by_adding(&masses, reference, 0, count));
    }
}

#[test]
fn cut_at_every_budget_and_resumed_at_every_budget() {
    let mut random = Random::seeded(5);
    for _ in 0..200 {
        let (masses, reference) = small_case(&mut random);
        let states = states_by_adding(&masses, reference);
        let all = states.len() - 1;
        for start in 0..=all {
            for budget in 0..=all + 2 {
                let stop = (start + budget).min(all);
                let mut ends = vec![GUARD_16; masses.len() + 1];
                let answer =
                    sweep(&masses, &mut ends, reference, states[start], budget as u64).unwrap();
                let moves = (stop - start) as u64;
                assert_eq!(
                    answer,
                    SweepAnswer {
                        state: states[stop],
                        moves
                    }
                );
                let (from, dropped) = (states[start].dropped, states[stop].dropped);
                assert_eq!(ends, ends_by_adding(&masses, reference, from, dropped));
            }
        }
    }
}

#[test]
fn states_reached_and_no_others() {
    let mut random = Random::seeded(6);
    for _ in 0..40 {
        let (masses, reference) = small_case(&mut random);
        let masses = &masses[..masses.len().min(4)];
        let reached = states_by_adding(masses, reference);
        let most = masses.iter().sum::<u32>();
        for taken in 0..=masses.len() as u64 + 1 {
            for dropped in 0..=masses.len() as u64 + 1 {
                for mass in 0..=u64::from(most) + 1 {
                    for moves in 0..=2 * masses.len() as u64 + 1 {
                        let state = SweepState {
                            taken,
                            dropped,
                            mass,
                            moves,
                        };
                        let mut ends = vec![GUARD_16; masses.len()];
                        let answer = sweep(masses, &mut ends, reference, state, 0);
                        let expected = if reached.contains(&state) {
                            Ok(SweepAnswer { state, moves: 0 })
                        } else {
                            refused(13, 0)
                        };
                        assert_eq!(answer, expected);
                    }
                }
            }
        }
    }
}

#[test]
fn wild_states_are_13() {
    let masses = [3, 0, 4, 2, 5];
    let last = SweepState {
        taken: 5,
        dropped: 4,
        mass: 5,
        moves: 9,
    };
    assert_eq!(
        sweep(&masses, &mut [0; 5], 7, last, 1),
        Ok(SweepAnswer {
            state: last,
            moves: 0
        })
    );
    for wild in [1 << 32, u64::MAX, 1 << 63] {
        for state in [
            SweepState {
                taken: last.taken.wrapping_add(wild),
                ..last
            },
            SweepState {
                dropped: last.dropped.wrapping_add(wild),
                ..last
            },
            SweepState {
                mass: last.mass.wrapping_add(wild),
                ..last
            },
            SweepState {
                moves: last.moves.wrapping_add(wild),
                ..last
            },
        ] {
            let mut ends = [GUARD_16; 5];
            assert_eq!(
                sweep(&masses, &mut ends, 7, state, u64::MAX),
                refused(13, 0)
            );
            assert_eq!(ends, [GUARD_16; 5]);
        }
    }
    // Reached with reference 7, not with 8.
    let closed = SweepState {
        taken: 3,
        dropped: 1,
        mass: 4,
        moves: 4,
    };
    assert!(sweep(&masses, &mut [0; 5], 7, closed, 0).is_ok());
    assert_eq!(sweep(&masses, &mut [0; 5], 8, closed, 0), refused(13, 0));
}

#[test]
fn no_kept_second_is_accepted_and_over() {
    let over = Ok(SweepAnswer {
        state: BEGIN,
        moves: 0,
    });
    assert_eq!(sweep(&[], &mut [], 1, BEGIN, u64::MAX), over);
    let moved = SweepState { moves: 1, ..BEGIN };
    assert_eq!(sweep(&[], &mut [], 1, moved, 0), refused(13, 0));
}

#[test]
fn a_lane_of_8_192_places() {
    let masses = vec![100_000; 8_192];
    let mut ends = vec![GUARD_16; 8_192];
    let answer = sweep(&masses, &mut ends, 100_000, BEGIN, u64::MAX).unwrap();
    assert_eq!(answer.moves, 16_384);
    let each_its_own: Vec<u16> = (1..=8_192).collect();
    assert_eq!(ends, each_its_own);
}

/// "Sweep: 5 (its reference), 2, 6, 3, 13": every set of faults gives the first of them.
#[test]
fn order_of_refusals() {
    for faults in 0..32 {
        let [plan, many, short, value, state] = [1, 2, 4, 8, 16].map(|bit| faults & bit != 0);
        let count = if many { 8_193 } else { 8_192 };
        let mut masses = vec![1; count];
        if value {
            masses[77] = 100_001;
            masses[78] = u32::MAX;
        }
        let mut ends = vec![GUARD_16; if short { count - 1 } else { count }];
        let reference = if plan { 20_000_001 } else { 20_000_000 };
        let from = SweepState {
            moves: u64::from(state),
            ..BEGIN
        };
        let answer = sweep(&masses, &mut ends, reference, from, 5);
        let expected = if plan {
            refused(5, 0)
        } else if many {
            refused(2, 0)
        } else if short {
            refused(6, 0)
        } else if value {
            refused(3, 77)
        } else if state {
            refused(13, 0)
        } else {
            let state = SweepState {
                taken: 5,
                dropped: 0,
                mass: 5,
                moves: 5,
            };
            Ok(SweepAnswer { state, moves: 5 })
        };
        assert_eq!(answer, expected, "{faults:05b}");
        assert!(ends.iter().all(|&end| end == GUARD_16));
    }
    assert_eq!(sweep(&[], &mut [], 0, BEGIN, 0), refused(5, 0));
}
