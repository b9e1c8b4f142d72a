//! The structs that cross from C by value: every value of every byte of one is an input, and has
//! its answer.

use std::mem::offset_of;

use library::{bytes_of_plan, SweepState};
use oracle::second::Second;
use oracle::{windows, Plan, Rules};

use crate::account::{Account, Comparison};
use crate::case::{Case, MassInput, SweepInput, TripInput, WriteInput};
use crate::lanes::{plan_of, Lanes};
use crate::random::Random;

mod readers;

const STATE_BYTES: usize = size_of::<SweepState>();
const SETTING_BYTES: usize = size_of::<library::Setting>();

pub fn compare(account: &mut Account) {
    let seed = account.seed;
    readers::compare(account);
    account.compare("sweep states, every value of every byte", |c| {
        states_of_the_sweep(c, seed)
    });
    account.compare("plans, every value of every byte", |c| plans(c, seed));
    account.compare("settings, every value of every byte", settings);
}

/// Each byte set to each value, alone.
fn each_value<const N: usize>(bytes: [u8; N], mut take: impl FnMut([u8; N])) {
    for at in 0..N {
        for value in 0..=u8::MAX {
            let mut altered = bytes;
            altered[at] = value;
            take(altered);
        }
    }
}

/// So many bytes from `at` on.
fn part<const N: usize>(bytes: &[u8], at: usize) -> [u8; N] {
    bytes[at..at + N].try_into().expect("bytes of a struct")
}

/// The plan that lies in these bytes.
fn plan_in(bytes: &[u8]) -> Plan {
    let number = |at: usize| u32::from_ne_bytes(part(bytes, at));
    Plan {
        reference: number(offset_of!(library::Plan, reference)),
        e1: number(offset_of!(library::Plan, e1)),
        e2: number(offset_of!(library::Plan, e2)),
        e3: number(offset_of!(library::Plan, e3)),
        lower: bytes[offset_of!(library::Plan, lower)],
        upper: part(bytes, offset_of!(library::Plan, urban)),
    }
}

// ---- states of the sweep

/// The state that lies in these bytes.
fn state_in(bytes: [u8; STATE_BYTES]) -> SweepState {
    let number = |at: usize| u64::from_ne_bytes(part(&bytes, at));
    SweepState {
        taken: number(offset_of!(SweepState, taken)),
        dropped: number(offset_of!(SweepState, dropped)),
        mass: number(offset_of!(SweepState, mass)),
        moves: number(offset_of!(SweepState, moves)),
    }
}

/// The four members of a state of the sweep in their order.
type Members = [u64; 4];

/// The bytes of a state, as they lie in memory; nothing lies between its members.
fn bytes_of_state(members: Members) -> [u8; STATE_BYTES] {
    part(members.map(u64::to_ne_bytes).as_flattened(), 0)
}

/// Every state that a sweep stands in, one after the other.
fn states(rules: &Rules, reference: u32, co2: &[u32]) -> Vec<Members> {
    let members = |s: windows::SweepState| [s.taken, s.dropped, s.mass, s.moves];
    let mut state = windows::SweepState::default();
    let mut found = vec![members(state)];
    while let Some(made) = windows::one_move(rules, co2, reference, state) {
        state = made.after;
        found.push(members(state));
    }
    found
}

/// States that a sweep stands in, and some of which one byte leads there: a state but for one
/// member, which is that of the state before.
fn bases(random: &mut Random, states: &[Members]) -> Vec<Members> {
    let mut bases = vec![states[0], states[states.len() - 1]];
    for _ in 0..3 {
        let at = random.below(states.len() as u64) as usize;
        let mut beside = states[at];
        let member = random.below(4) as usize;
        beside[member] = states[at.saturating_sub(1)][member];
        bases.extend([states[at], beside]);
    }
    bases
}

fn states_of_the_sweep(comparison: &mut Comparison, seed: u64) {
    let mut random = Random::new(seed ^ 43);
    for (seconds, reference) in [(0, 1), (1, 7), (9, 1), (9, 2_000), (19, 700), (300, 9_000)] {
        let co2: Vec<u32> = (0..seconds).map(|_| random.below(1_000) as u32).collect();
        let states = states(&comparison.rules, reference, &co2);
        for base in bases(&mut random, &states) {
            let budget = [0, 1, 3, u64::MAX][random.below(4) as usize];
            each_value(bytes_of_state(base), |bytes| {
                comparison.case(&Case::Sweep(SweepInput {
                    reference,
                    co2: co2.clone(),
                    places: co2.len(),
                    state: state_in(bytes),
                    budget,
                }));
            });
        }
    }
}

// ---- plans

/// A plan of one number for each of its ranges.
fn even_plan(reference: u32, e: u32, tolerance: u8) -> Plan {
    Plan {
        reference,
        e1: e,
        e2: e,
        e3: e,
        lower: tolerance,
        upper: [tolerance; 3],
    }
}

/// Some seconds at a speed of each class, with masses around those of an even curve.
fn trip(random: &mut Random, e: u32) -> Lanes {
    let mut second = |speed: u16| {
        let on_the_curve = u32::from(speed) * (e / 1_000) / 360;
        Second {
            state: 1,
            speed,
            altitude: 0,
            co2: on_the_curve * (60 + random.below(80) as u32) / 100,
            nox: 1,
        }
    };
    let speeds = [3_600, 7_000, 12_000].map(|speed| [speed; 8]);
    let seconds = speeds.as_flattened().iter().map(|&speed| second(speed));
    Lanes::of(&seconds.collect::<Vec<Second>>())
}

/// More bytes than the stream of these seconds has.
const ROOM: usize = 400;

/// Plans at the ends of their ranges and between them: with windows, inside and not, and without;
/// and each written.
fn plans(comparison: &mut Comparison, seed: u64) {
    let mut random = Random::new(seed ^ 44);
    let e = 150_000;
    let trip = trip(&mut random, e);
    let ends = [even_plan(1, 1, 0), even_plan(20_000_000, 2_000_000, 100)];
    let between = [even_plan(3_000, e, 25), even_plan(9_000, e, 9)];
    for plan in ends.into_iter().chain(between) {
        each_value(bytes_of_plan(plan_of(&plan)), |bytes| {
            comparison.case(&Case::Trip(TripInput {
                plan: plan_in(&bytes),
                trip: trip.clone(),
                places: [trip.states.len(); 4],
                printed: false,
            }));
            comparison.case(&Case::Write(WriteInput {
                plan: plan_in(&bytes),
                trip: trip.clone(),
                places: ROOM,
            }));
        });
    }
}

// ---- settings

/// Both masses of a reading of a kind, with the setting that lies in these bytes.
fn setting(comparison: &mut Comparison, kind: u8, value: f64, bytes: [u8; SETTING_BYTES]) {
    let number = |at: usize| f64::from_ne_bytes(part(&bytes, at));
    let case = Case::Mass(MassInput {
        kind,
        value,
        u: number(offset_of!(library::Setting, u)),
        factor: number(offset_of!(library::Setting, factor)),
        flow: number(offset_of!(library::Setting, flow)),
    });
    let wanted = case.by_paper(&comparison.rules);
    comparison.same(case.by_library(), wanted, || {
        format!("kind {kind}, value {value}, setting {bytes:02x?}")
    });
}

/// Every kind with an ordinary setting; the four kinds and one that there is not with settings of
/// which one number is an end of its range, zero, not finite or not a number.
fn settings(comparison: &mut Comparison) {
    let (value, ordinary) = (12.5, [0.0015, 0.95, 0.08]);
    let bytes_of = |numbers: [f64; 3]| part(numbers.map(f64::to_ne_bytes).as_flattened(), 0);
    for kind in 0..=u8::MAX {
        each_value(bytes_of(ordinary), |bytes| {
            setting(comparison, kind, value, bytes)
        });
    }
    let ends = [0.01, 1.0, 1.0];
    for member in 0..ordinary.len() {
        let wild = [ends[member], 0.0, -0.0, f64::INFINITY, f64::NAN];
        for number in wild {
            let mut numbers = ordinary;
            numbers[member] = number;
            for kind in 0..=4 {
                each_value(bytes_of(numbers), |bytes| {
                    setting(comparison, kind, value, bytes)
                });
            }
        }
    }
}
