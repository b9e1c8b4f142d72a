//! "Examples (a) to (l) are one table"; (d) to (f) are restated by L2.

use crate::as_it_stands::{
    co2_mass, corrected_altitudes, curve, each_reason, figures, percentile, product, products,
    sweep,
};
use crate::build::{measured, of_speeds, Lanes, PRINTED_PLAN};
use oracle::bound::below;
use oracle::fraction::whole;
use oracle::mass::{Reading, Setting};
use oracle::windows::{self, SweepState};
use oracle::Rules;

/// The ends that a sweep to its end writes, then its moves.
fn swept(masses: &[u32], reference: u32) -> Vec<i128> {
    let mut ends = vec![0; masses.len()];
    let begin = SweepState::default();
    let answer = sweep(masses, &mut ends, reference, begin, u64::MAX).unwrap();
    let mut row: Vec<i128> = ends
        .into_iter()
        .filter(|&end| end > 0)
        .map(i128::from)
        .collect();
    row.push(i128::from(answer.moves));
    row
}

/// The products of all bins, in the order of the seconds.
fn products_of(speeds: &[u16]) -> Vec<i128> {
    let lanes = Lanes::of(&of_speeds(speeds));
    products(lanes.trip())
        .concat()
        .into_iter()
        .map(i128::from)
        .collect()
}

/// The corrected altitude after a change at speed 3,600.
fn corrected_after(change: i32) -> Vec<i128> {
    let lanes = Lanes::of(&[measured(3_600, 0, 0, 0), measured(3_600, change, 0, 0)]);
    vec![corrected_altitudes(lanes.trip())[1].unwrap()]
}

/// Whether "300 times climb not below total S", by a trip with this S and climb.
fn climb_reason(climb: i32) -> Vec<i128> {
    // 1,152 seconds at 25,000, up in steps of at most 100 cm.
    let seconds: Vec<_> = (0..1_152)
        .map(|i| measured(25_000, (i * 100).min(climb), 0, 0))
        .collect();
    let lanes = Lanes::of(&seconds);
    let figures = figures(&PRINTED_PLAN, lanes.trip());
    assert_eq!(figures.total.distance, 28_800_000);
    assert_eq!(figures.climb, i128::from(climb));
    vec![i128::from(each_reason(&figures)[10])]
}

fn percentile_1_to_101() -> Vec<i128> {
    let values: Vec<u32> = (1..=101).rev().collect();
    vec![percentile(&values, &mut [0; 101]).unwrap()]
}

fn mass_of_l() -> Vec<i128> {
    let setting = Setting {
        u: 1.0 / 1_024.0,
        factor: 0.5,
        flow: 0.125,
    };
    vec![i128::from(
        co2_mass(Reading::DryPpm(1_024.0), setting).unwrap(),
    )]
}

#[test]
fn a_to_l() {
    let masses = [3, 0, 4, 2, 5];
    let counted = |d: i128| vec![i128::from(product(1, d).is_some())];
    let table: [(&str, Vec<i128>, Vec<i128>); 16] = [
        ("a", swept(&masses, 7), vec![3, 5, 5, 5, 9]),
        ("b", swept(&masses, 15), vec![5]),
        ("c", swept(&[7], 7), vec![1, 2]),
        ("d", vec![curve(&PRINTED_PLAN, 18_883)], vec![199_998]),
        ("e", vec![curve(&PRINTED_PLAN, 37_773)], vec![170_000]),
        ("f", vec![curve(&PRINTED_PLAN, 56_664)], vec![140_000]),
        (
            "g",
            products_of(&[1_000, 2_000, 1_500]),
            vec![2_000_000, 1_000_000],
        ),
        ("h: 72", counted(72), vec![0]),
        ("h: 73", counted(73), vec![1]),
        ("i", percentile_1_to_101(), vec![9_595]),
        ("j: 707", corrected_after(707), vec![707]),
        ("j: 708", corrected_after(708), vec![0]),
        ("k: 95,999", climb_reason(95_999), vec![0]),
        ("k: 96,000", climb_reason(96_000), vec![1]),
        ("l", mass_of_l(), vec![62]),
        ("j: -708", corrected_after(-708), vec![0]),
    ];
    for (name, found, expected) in table {
        assert_eq!(found, expected, "example ({name})");
    }
}

/// "Examples (d) to (f) become statements about the exact line, (d) lying strictly between 199,998 and
/// 199,999."
#[test]
fn d_to_f_on_the_exact_line() {
    let mut rules = oracle::release(2).unwrap();
    let at = |rules: &Rules, v: i128| windows::curve(rules, &PRINTED_PLAN, whole(v));
    let d = at(&rules, 18_883);
    assert!(whole(199_998) < d && d < whole(199_999));
    assert_eq!(at(&rules, 37_773), whole(170_000));
    // (f) from either line.
    assert_eq!(at(&rules, 56_664), whole(140_000));
    rules.windows.turn = below(56_664);
    assert_eq!(at(&rules, 56_664), whole(140_000));
}
