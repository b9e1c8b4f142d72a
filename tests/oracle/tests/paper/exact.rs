//! "Judge the band on the true fractions" (L2): release 2.

use crate::build::PRINTED_PLAN;
use oracle::fraction::{fraction, whole, Fraction};
use oracle::numbers::{MOTORWAY, RURAL, URBAN};
use oracle::windows::{self, WindowFigures};
use oracle::{Plan, Rules};
use std::sync::LazyLock;

static RELEASES: LazyLock<[Rules; 2]> =
    LazyLock::new(|| [1, 2].map(|number| oracle::release(number).unwrap()));

fn exact() -> &'static Rules {
    &RELEASES[1]
}

fn curve(plan: &Plan, v: Fraction) -> Fraction {
    windows::curve(exact(), plan, v)
}

/// A window by S, m and n.
type Sums = (i128, i128, i128);

fn judged(plan: &Plan, (s, m, n): Sums) -> WindowFigures {
    windows::figures_of_sums(exact(), plan, s, m, n)
}

fn is_inside(plan: &Plan, sums: Sums) -> bool {
    judged(plan, sums).inside
}

/// Whether a window is inside by release 1, and by release 2.
fn by_both(plan: &Plan, (s, m, n): Sums) -> [bool; 2] {
    let by = |rules: &Rules| windows::figures_of_sums(rules, plan, s, m, n).inside;
    [by(&RELEASES[0]), by(&RELEASES[1])]
}

#[test]
fn the_exact_mean() {
    assert_eq!(windows::mean_speed(exact(), 100, 1), whole(1_000));
    assert_eq!(windows::mean_speed(exact(), 200, 3), fraction(2_000, 3));
}

#[test]
fn the_class_of_the_exact_mean() {
    let borders = [
        (45_000, Some(URBAN), Some(RURAL)),
        (80_000, Some(RURAL), Some(MOTORWAY)),
        (145_000, Some(MOTORWAY), None),
    ];
    for (border, before, after) in borders {
        let just_below = fraction(border * 1_000 - 1, 1_000);
        assert_eq!(windows::class(exact(), just_below), before);
        assert_eq!(windows::class(exact(), whole(border)), after);
        let just_above = fraction(border * 1_000 + 1, 1_000);
        assert_eq!(windows::class(exact(), just_above), after);
    }
}

/// "the curve is the unrounded line at the exact mean", also below 18,882.
#[test]
fn the_unrounded_line() {
    let first = |v: Fraction| v.plus(-18_882).times(-60_000).over(37_782).plus(200_000);
    let second = |v: Fraction| v.plus(-56_664).times(20_000).over(35_333).plus(140_000);
    for v in [whole(0), whole(1_000), fraction(37_765, 2), whole(18_883)] {
        assert_eq!(curve(&PRINTED_PLAN, v), first(v));
    }
    for v in [fraction(169_995, 3), whole(91_997), fraction(1_000_001, 7)] {
        assert_eq!(curve(&PRINTED_PLAN, v), second(v));
    }
    assert_eq!(curve(&PRINTED_PLAN, whole(91_997)), whole(160_000));
}

/// "the first up to 56,664 itself": from there on, also up to 56,665, the second.
#[test]
fn the_turn_at_56_664_itself() {
    let steep = Plan {
        e1: 1,
        e2: 500_000,
        e3: 1,
        ..PRINTED_PLAN
    };
    let at = |thousandths: i128| curve(&steep, fraction(thousandths, 1_000));
    assert_eq!(at(56_664_000), whole(500_000));
    // One thousandth before it and after it: 499,999 parts of 37,782,000 and of 35,333,000 lower.
    let first = fraction(-499_999, 37_782_000).plus(500_000);
    let second = |thousandths: i128| fraction(-499_999 * thousandths, 35_333_000).plus(500_000);
    assert_eq!(at(56_663_999), first);
    assert_eq!(at(56_664_001), second(1));
    assert_eq!(at(56_664_999), second(999));
    assert_eq!(at(56_665_000), second(1_000));
    assert_eq!(at(56_665_001), second(1_001));
}

/// "the window figure is the exact quotient"
#[test]
fn the_exact_quotient() {
    assert_eq!(windows::figure(exact(), 7, 7_200), whole(350));
    assert_eq!(windows::figure(exact(), 2, 7), fraction(720_000, 7));
    let small = windows::figure(exact(), 1, 360_001);
    assert!(whole(0) < small && small < whole(1));
}

/// A curve that falls by 1 and then rises by 2 for each 0.001 km/h.
const SLOPES: Plan = Plan {
    reference: 1,
    e1: 177_782,
    e2: 140_000,
    e3: 210_666,
    lower: 25,
    upper: [50; 3],
};

/// "both comparisons are made by cross-multiplying": windows whose mean, curve and figure are sevenths,
/// and whose products are equal.
#[test]
fn equality_in_each_comparison() {
    // v is 42,857 1/7 and c 153,806 6/7; then v is 68,571 3/7 and c 163,814 6/7.
    let [first, second] = [fraction(1_076_648, 7), fraction(1_146_704, 7)];
    let table = [
        (3_360_000, 784, first, 75, -1),
        (1_680_000, 392, first, 150, 1),
        (3_360_000, 490, second, 75, -1),
        (1_680_000, 245, second, 150, 1),
    ];
    for (s, n, c, percent, outwards) in table {
        let m = c.times(7).as_whole().unwrap();
        let on_the_end = judged(&SLOPES, (s, m, n));
        assert_eq!(on_the_end.c, c);
        assert_eq!(on_the_end.w.times(100), c.times(percent));
        assert!(on_the_end.inside);
        assert!(is_inside(&SLOPES, (s, m - outwards, n)));
        assert!(!is_inside(&SLOPES, (s, m + outwards, n)));
    }
}

fn flat(c: u32, lower: u8, upper: u8) -> Plan {
    Plan {
        reference: 1,
        e1: c,
        e2: c,
        e3: c,
        lower,
        upper: [upper; 3],
    }
}

/// Where release 1 answered otherwise: ten km, so that m is a tenth of w.
#[test]
fn what_the_rounding_decided() {
    let plan = flat(100_001, 10, 10);
    let window = |m| by_both(&plan, (3_600_000, m, 1_000));
    // The lower end is 90,000.9: release 1 had 90,000 for it, below the end.
    assert_eq!(window(900_008), [false, false]);
    assert_eq!(window(900_009), [false, true]);
    assert_eq!(window(900_010), [true, true]);
    // The upper end is 110,001.1: release 1 had 110,001 up to 110,001.9.
    assert_eq!(window(1_100_011), [true, true]);
    assert_eq!(window(1_100_012), [true, false]);
    assert_eq!(window(1_100_019), [true, false]);
    assert_eq!(window(1_100_020), [false, false]);
}

/// A mean strictly between 56,664 and 56,665: release 1 had the first line at 56,664 there.
#[test]
fn between_56_664_and_56_665() {
    let steep = Plan {
        e1: 2_000_000,
        e2: 1_000,
        e3: 2_000_000,
        ..flat(1, 0, 100)
    };
    // 56,664.5: the second line is at 1,028 there, the first at 974.
    let (s, n) = (56_664_500, 10_000);
    let w = |m: i128| fraction(360_000 * m, s);
    let c = fraction(1_999_000, 2 * 35_333).plus(1_000);
    let m = 161_854;
    assert!(w(m - 1) < c && c <= w(m));
    assert_eq!(judged(&steep, (s, m, n)).c, c);
    assert_eq!(by_both(&steep, (s, m, n)), [true, true]);
    assert_eq!(by_both(&steep, (s, m - 1, n)), [true, false]);
}

/// A curve of zero or below has nothing inside, for a window has at least 1 mg.
#[test]
fn no_window_inside_a_curve_that_is_not_above_zero() {
    // This curve is 0 at 96,664.
    let falling = |lower| Plan {
        e1: 100_000,
        e2: 40_000,
        e3: 4_667,
        ..flat(1, lower, 100)
    };
    for lower in [0, 100] {
        let plan = falling(lower);
        assert_eq!(curve(&plan, whole(96_664)), whole(0));
        assert!(curve(&plan, fraction(966_641, 10)) < whole(0));
        for s in [9_666_400, 9_666_401, 14_499_999] {
            for m in [1, 2, 1_000, 4_294_967_295] {
                assert!(!is_inside(&plan, (s, m, 1_000)));
            }
        }
    }
    // A tenth above zero, the figure is 0.037.
    assert!(is_inside(&falling(100), (9_666_390, 1, 1_000)));
    assert!(!is_inside(&falling(25), (9_666_390, 1, 1_000)));
    // Release 1 had the figure 0 there, which is inside a curve of 0.
    let at_zero = (9_666_400, 1, 1_000);
    assert_eq!(by_both(&falling(25), at_zero), [true, false]);
}

#[test]
fn tolerances_of_0_and_100() {
    // One km: m is w.
    let inside = |plan: &Plan, m| is_inside(plan, (360_000, m, 100));
    let none = flat(200_000, 0, 0);
    assert!(!inside(&none, 199_999) && inside(&none, 200_000) && !inside(&none, 200_001));
    let all = flat(200_000, 100, 100);
    assert!(inside(&all, 1) && inside(&all, 400_000) && !inside(&all, 400_001));
    // Lower 100 holds always, also where the figure is next to nothing.
    let sums = (360_000 * 300, 1, 32_768);
    assert!(is_inside(&all, sums) && !is_inside(&flat(200_000, 99, 100), sums));
}

/// Sums that no trip has: nothing overflows, and the side is right.
#[test]
fn sums_of_any_size() {
    let most = i128::from(u32::MAX);
    let steepest = [(1, 2_000_000, 1), (2_000_000, 1, 2_000_000)];
    for (e1, e2, e3) in steepest {
        let plan = Plan {
            e1,
            e2,
            e3,
            ..flat(1, 100, 100)
        };
        for s in [1, most] {
            for m in [1, most] {
                for n in [1, 2, 32_767, 32_768] {
                    let found = judged(&plan, (s, m, n));
                    assert_eq!(found.v, fraction(10 * s, n));
                    let least = found.w >= whole(0);
                    let most = found.w <= found.c.times(2);
                    let expected = found.class.is_some() && least && most;
                    assert_eq!(found.inside, expected, "{s} {m} {n}");
                }
            }
        }
    }
}
