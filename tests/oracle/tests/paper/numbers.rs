//! "Units and ranges", both sides of every end.

use crate::as_it_stands::{in_range, paper, recorded};
use crate::build::{check, measured, missing_with_values, PRINTED_PLAN};
use oracle::bound::Rounding;
use oracle::numbers::*;
use oracle::rules::NEWEST;
use oracle::second::Second;

#[test]
fn numbers_of_refusal() {
    let in_order = [
        ACCEPTED,
        LANES_DIFFER,
        TOO_MANY,
        OUT_OF_RANGE,
        NO_SECOND,
        PLAN_OUT_OF_RANGE,
        LANE_TOO_SHORT,
        ENDS_INSIDE_ITEM,
        UNKNOWN_KIND,
        MASS_INPUT,
        MASS_ABOVE_RANGE,
        PLAN_ABSENT_LATE_OR_REPEATED,
        TOO_FEW_VALUES,
        STATE_NEVER_REACHED,
    ];
    assert_eq!(in_order, [0, 1, 2, 3, 4, 5, 6, 7, 8, 9, 10, 11, 12, 13]);
}

#[test]
fn releases_run_from_1_to_the_newest() {
    let known = |number: u32| oracle::release(number).is_some();
    assert!(!known(0));
    assert!((1..=NEWEST).all(known));
    assert!(!known(NEWEST + 1));
}

#[test]
fn the_first_of_an_order_whose_condition_holds() {
    let mut order = paper().orders.trip.clone();
    let both = |number: u8| [6, 3].contains(&number).then_some(usize::from(number));
    assert_eq!(refuse(&order, both), Err(Refusal::at(6, 6)));
    assert_eq!(refuse(&order, |_| None), Ok(()));
    // A wrong reading has 3 before 6; where 3 does not hold, it is 6 as ever.
    order.exchanged = Some((6, 3));
    assert_eq!(refuse(&order, both), Err(Refusal::at(3, 3)));
    assert_eq!(
        refuse(&order, |number| at_0(number == 6)),
        Err(Refusal::new(6))
    );
}

#[test]
fn quotients_rounded_each_way() {
    let each = [
        Rounding::Down,
        Rounding::Up,
        Rounding::TowardsZero,
        Rounding::Nearest,
    ];
    let of = |number: i128| each.map(|rounding| rounding.quotient(number, 10));
    assert_eq!(of(30), [3, 3, 3, 3]);
    assert_eq!(of(34), [3, 4, 3, 3]);
    assert_eq!(of(36), [3, 4, 3, 4]);
    assert_eq!(of(-34), [-4, -3, -3, -3]);
    assert_eq!(of(-36), [-4, -3, -3, -4]);
}

#[test]
fn plan_ranges() {
    let with = |change: fn(&mut Plan, u32), value: u32| {
        let mut plan = PRINTED_PLAN;
        change(&mut plan, value);
        plan.in_range(paper())
    };
    let curve_values: [fn(&mut Plan, u32); 3] = [
        |plan, value| plan.e1 = value,
        |plan, value| plan.e2 = value,
        |plan, value| plan.e3 = value,
    ];
    let tolerances: [fn(&mut Plan, u32); 4] = [
        |plan, value| plan.lower = value as u8,
        |plan, value| plan.upper[0] = value as u8,
        |plan, value| plan.upper[1] = value as u8,
        |plan, value| plan.upper[2] = value as u8,
    ];
    for (value, in_range) in [
        (0, false),
        (1, true),
        (20_000_000, true),
        (20_000_001, false),
    ] {
        assert_eq!(with(|plan, value| plan.reference = value, value), in_range);
    }
    for change in curve_values {
        for (value, in_range) in [(0, false), (1, true), (2_000_000, true), (2_000_001, false)] {
            assert_eq!(with(change, value), in_range);
        }
    }
    for change in tolerances {
        for (value, in_range) in [(0, true), (100, true), (101, false), (255, false)] {
            assert_eq!(with(change, value), in_range);
        }
    }
}

#[test]
fn second_ranges() {
    for second in [measured, check] {
        assert!(in_range(&second(0, -50_000, 0, 0)));
        assert!(in_range(&second(25_000, 500_000, 100_000, 10_000_000)));
        assert!(!in_range(&second(25_001, 0, 0, 0)));
        assert!(!in_range(&second(0, -50_001, 0, 0)));
        assert!(!in_range(&second(0, 500_001, 0, 0)));
        assert!(!in_range(&second(0, 0, 100_001, 0)));
        assert!(!in_range(&second(0, 0, 0, 10_000_001)));
    }
}

#[test]
fn states_are_1_2_3() {
    for state in 0..=255 {
        let second = Second {
            state,
            ..measured(0, 0, 0, 0)
        };
        assert_eq!(in_range(&second), (1..=3).contains(&state));
        assert_eq!(recorded(&second), state == 1 || state == 3);
    }
}

#[test]
fn values_of_a_missing_second_are_ignored() {
    assert!(in_range(&missing_with_values()));
    assert!(!recorded(&missing_with_values()));
}
