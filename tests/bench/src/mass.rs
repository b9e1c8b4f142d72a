//! A million mass steps.

use library::{MassAnswer, Setting};

use crate::timing::against;

const STEPS: usize = 1_000_000;

struct Step {
    kind: u8,
    value: f64,
    setting: Setting,
}

pub fn bench() {
    let steps = steps(|i, _| [2, 1][i % 2]);
    against(
        "a million masses, wet percent and dry ppm",
        || ours(&steps),
        || theirs(&steps),
    );
    let steps = self::steps(|_, random| (random * 4.0) as u8);
    against(
        "a million masses, kinds at random",
        || ours(&steps),
        || theirs(&steps),
    );
}

/// Readings as a gas bench gives them, all in range, of the kind that `kind` chooses.
fn steps(kind: impl Fn(usize, f64) -> u8) -> Vec<Step> {
    let mut state = 2017_1151u64;
    let mut unit = move || {
        state = state
            .wrapping_mul(6_364_136_223_846_793_005)
            .wrapping_add(1_442_695_040_888_963_407);
        (state >> 11) as f64 / (1u64 << 53) as f64
    };
    (0..STEPS)
        .map(|i| {
            let kind = kind(i, unit());
            Step {
                kind,
                value: unit() * if kind < 2 { 150_000.0 } else { 15.0 },
                setting: Setting {
                    u: 0.001 + unit() * 0.0005,
                    factor: 0.85 + unit() * 0.1,
                    flow: unit() * 0.15,
                },
            }
        })
        .collect()
}

fn ours(steps: &[Step]) -> u64 {
    steps
        .iter()
        .map(|s| folded(library::mass_co2(s.kind, s.value, s.setting)))
        .sum()
}

fn theirs(steps: &[Step]) -> u64 {
    let plain: extern "C" fn(u8, f64, Setting) -> MassAnswer = std::hint::black_box(plain);
    steps
        .iter()
        .map(|s| folded(plain(s.kind, s.value, s.setting)))
        .sum()
}

fn folded(answer: MassAnswer) -> u64 {
    u64::from(answer.mass) + u64::from(answer.refusal) + answer.place as u64
}

/// The CO2 mass in plain Rust, called as the library is: a C function of its own, of which its
/// caller knows nothing.
extern "C" fn plain(kind: u8, value: f64, setting: Setting) -> MassAnswer {
    let refused = |refusal| MassAnswer {
        refusal,
        mass: 0,
        place: 0,
    };
    let most = if kind < 2 { 200_000.0 } else { 20.0 };
    let in_range = kind < 4
        && (0.0..=most).contains(&value)
        && setting.u > 0.0
        && setting.u <= 0.01
        && setting.factor > 0.0
        && setting.factor <= 1.0
        && (0.0..=1.0).contains(&setting.flow);
    if !in_range {
        return refused(9);
    }
    let wet = match kind {
        0 => value,
        1 => value * setting.factor,
        2 => value * 10_000.0,
        _ => value * 10_000.0 * setting.factor,
    };
    let whole = whole_part(setting.u * wet * setting.flow * 1_000.0);
    if whole > 100_000 {
        return refused(10);
    }
    MassAnswer {
        refusal: 0,
        mass: whole as u32,
        place: 0,
    }
}

/// The whole part of a number from 0 to below 2^53, found from its bits as the paper asks.
fn whole_part(x: f64) -> u64 {
    if x < 1.0 {
        return 0;
    }
    let bits = x.to_bits();
    let digits = bits & ((1 << 52) - 1) | 1 << 52;
    digits >> (1_075 - (bits >> 52))
}
