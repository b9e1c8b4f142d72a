//! The mass step: both sides of every end, and products so near a whole number that the order of
//! the roundings decides.

use super::Chosen;
use crate::case::{Case, MassInput};
use crate::random::Random;

pub fn add(all: &mut Chosen, random: &mut Random) {
    ends(all);
    plain(all, random);
    near_whole_numbers(all, random);
}

const TAME: MassInput = MassInput {
    kind: 1,
    value: 1_024.0,
    u: 0.0009765625,
    factor: 0.5,
    flow: 0.125,
};

/// Each input at each end of its range and one step to either side; both zeros; no number.
fn ends(all: &mut Chosen) {
    let mut add = |input: MassInput| all.add("mass, an end", Case::Mass(input));
    add(TAME);
    for kind in 0..5 {
        let most = if kind % 4 < 2 { 200_000.0 } else { 20.0 };
        for value in beside(most) {
            add(MassInput {
                kind,
                value,
                ..TAME
            });
        }
    }
    for u in beside(0.01) {
        add(MassInput { u, ..TAME });
    }
    for factor in beside(1.0) {
        add(MassInput { factor, ..TAME });
        add(MassInput {
            kind: 0,
            factor,
            ..TAME
        });
    }
    for flow in beside(1.0) {
        add(MassInput { flow, ..TAME });
    }
    // Out of range and above the mass's range at once.
    add(MassInput {
        value: 200_000.0,
        u: 0.011,
        factor: 1.0,
        flow: 1.0,
        ..TAME
    });
}

fn beside(most: f64) -> Vec<f64> {
    let least = f64::from_bits(1);
    let mut values = vec![0.0, -0.0, least, -least, f64::from_bits(2)];
    values.extend([most, most.next_down(), most.next_up()]);
    values.extend([f64::NAN, f64::INFINITY, f64::NEG_INFINITY]);
    values
}

/// Inputs in range, of each kind.
fn plain(all: &mut Chosen, random: &mut Random) {
    for round in 0..40 {
        let kind = round % 4;
        let most = if kind < 2 { 200_000.0 } else { 20.0 };
        let input = MassInput {
            kind,
            value: most * random.unit(),
            u: 0.01 * random.unit(),
            factor: random.unit(),
            flow: random.unit(),
        };
        all.add("mass", Case::Mass(input));
    }
}

/// Values whose last product lies within a few steps of a whole number, the limits among them.
fn near_whole_numbers(all: &mut Chosen, random: &mut Random) {
    for round in 0..400u64 {
        let kind = (round % 4) as u8;
        let u = 0.01 * (0.1 + 0.9 * random.unit());
        let factor = 0.5 + 0.5 * random.unit();
        let flow = 0.1 + 0.9 * random.unit();
        let scale = [1_000.0, 1_000_000.0][(round / 4 % 2) as usize];
        let most: u64 = if scale < 1e4 { 100_000 } else { 10_000_000 };
        let whole = match round % 3 {
            0 => most + random.below(2),
            _ => 1 + random.below(most / 4),
        };
        let dry = if kind % 2 == 1 { factor } else { 1.0 };
        let percent = if kind >= 2 { 10_000.0 } else { 1.0 };
        let value = whole as f64 / (u * flow * dry * percent * scale);
        let input = MassInput {
            kind,
            value,
            u,
            factor,
            flow,
        };
        for value in [value.next_down(), value, value.next_up()] {
            all.add(
                "mass, near a whole number",
                Case::Mass(MassInput { value, ..input }),
            );
        }
    }
}
