//! The mass step: every kind of reading, both scales.

use crate::account::{Account, Comparison};
use crate::case::{Case, MassInput as Input};
use crate::random::Random;

const PPM_MOST: f64 = 200_000.0;
const PERCENT_MOST: f64 = 20.0;
const U_MOST: f64 = 0.01;

pub fn compare(account: &mut Account) {
    let seed = account.seed;
    account.compare("mass, random bit patterns", |c| random_patterns(c, seed));
    account.compare("mass, inputs in range", |c| inputs_in_range(c, seed));
    account.compare("mass, every boundary and one step beside it", boundaries);
    account.compare(
        "mass, products at whole numbers and one step beside them",
        whole_masses,
    );
    account.compare("mass, every kind byte", every_kind);
}

/// Both scales of one input.
fn both(comparison: &mut Comparison, input: Input) {
    comparison.case(&Case::Mass(input));
}

/// Any f64 at all: NaNs, infinities, subnormals, both zeros.
fn random_patterns(comparison: &mut Comparison, seed: u64) {
    let mut random = Random::new(seed);
    for _ in 0..400_000 {
        let mut any = || f64::from_bits(random.bits());
        let (value, u, factor, flow) = (any(), any(), any(), any());
        let kind = random.below(5) as u8;
        both(
            comparison,
            Input {
                kind,
                value,
                u,
                factor,
                flow,
            },
        );
        // one wild number among tame ones: each is refused for its own sake
        let tame = in_range(&mut random);
        let wild = f64::from_bits(random.bits());
        both(comparison, with_one(tame, random.below(4), wild));
    }
}

fn inputs_in_range(comparison: &mut Comparison, seed: u64) {
    let mut random = Random::new(seed ^ 1);
    for _ in 0..500_000 {
        both(comparison, in_range(&mut random));
    }
}

/// An input in range, often near an end of it, over all sizes.
fn in_range(random: &mut Random) -> Input {
    let kind = random.below(4) as u8;
    Input {
        kind,
        value: up_to(random, if kind < 2 { PPM_MOST } else { PERCENT_MOST }),
        u: up_to(random, U_MOST).max(f64::MIN_POSITIVE),
        factor: up_to(random, 1.0).max(f64::MIN_POSITIVE),
        flow: up_to(random, 1.0),
    }
}

/// From 0 to `most`: evenly, by size, by few digits, or an end.
fn up_to(random: &mut Random, most: f64) -> f64 {
    match random.below(8) {
        0 => most,
        1 => most * 0.5f64.powi(random.below(1_080) as i32),
        2 => (random.below(1 << 8) as f64 / 256.0) * most,
        3 => most * random.unit() * 0.5f64.powi(random.below(60) as i32),
        _ => most * random.unit(),
    }
}

fn with_one(input: Input, which: u64, wild: f64) -> Input {
    match which {
        0 => Input {
            value: wild,
            ..input
        },
        1 => Input { u: wild, ..input },
        2 => Input {
            factor: wild,
            ..input
        },
        _ => Input {
            flow: wild,
            ..input
        },
    }
}

/// Both zeros, the ends of a range, one step to either side of each, and what no range holds.
fn beside(most: f64) -> Vec<f64> {
    let step = f64::from_bits(1);
    let mut values = vec![
        0.0,
        -0.0,
        step,
        -step,
        f64::MIN_POSITIVE,
        -f64::MIN_POSITIVE,
    ];
    values.extend([most / 2.0, most, most.next_down(), most.next_up(), -most]);
    values.extend([f64::INFINITY, f64::NEG_INFINITY, f64::NAN, f64::MAX]);
    values
}

fn boundaries(comparison: &mut Comparison) {
    for kind in 0..=4 {
        for value in beside(if kind < 2 { PPM_MOST } else { PERCENT_MOST }) {
            for u in beside(U_MOST) {
                for factor in beside(1.0) {
                    for flow in beside(1.0) {
                        both(
                            comparison,
                            Input {
                                kind,
                                value,
                                u,
                                factor,
                                flow,
                            },
                        );
                    }
                }
            }
        }
    }
}

/// Values whose last product is a whole number, up to both limits, and the f64 beside them.
fn whole_masses(comparison: &mut Comparison) {
    let u = 2f64.powi(-10);
    for (scale, most) in [(1_000.0, 100_000u32), (1_000_000.0, 10_000_000)] {
        let chosen = (0..400)
            .chain(most - 200..most + 200)
            .chain((0..most).step_by(most as usize / 10_000));
        for whole in chosen {
            let exact = f64::from(whole) * 1_024.0 / scale;
            let steps = [
                exact.next_down().next_down(),
                exact.next_down(),
                exact,
                exact.next_up(),
                exact.next_up().next_up(),
            ];
            for value in steps {
                both(
                    comparison,
                    Input {
                        kind: 0,
                        value,
                        u,
                        factor: 1.0,
                        flow: 1.0,
                    },
                );
                both(
                    comparison,
                    Input {
                        kind: 1,
                        value,
                        u,
                        factor: 0.5,
                        flow: 1.0,
                    },
                );
                both(
                    comparison,
                    Input {
                        kind: 2,
                        value: value / 10_000.0,
                        u,
                        factor: 1.0,
                        flow: 1.0,
                    },
                );
                both(
                    comparison,
                    Input {
                        kind: 3,
                        value: value / 10_000.0,
                        u,
                        factor: 0.5,
                        flow: 1.0,
                    },
                );
            }
        }
    }
}

fn every_kind(comparison: &mut Comparison) {
    for kind in 0..=u8::MAX {
        for value in [0.0, 1.0, 19.0, 21.0, f64::NAN] {
            both(
                comparison,
                Input {
                    kind,
                    value,
                    u: 0.005,
                    factor: 0.9,
                    flow: 0.1,
                },
            );
        }
    }
}
