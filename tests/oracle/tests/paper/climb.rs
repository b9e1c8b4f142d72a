//! "Climb".

use crate::as_it_stands::{climb, corrected_altitudes, is_held};
use crate::build::{check, measured, missing_with_values, Lanes};
use oracle::second::Second;

fn corrected(seconds: &[Second]) -> Vec<Option<i128>> {
    corrected_altitudes(Lanes::of(seconds).trip())
}

#[test]
fn held_only_when_more_than_the_limit() {
    // 648 is no square: only 0 and 0 meet the limit.
    assert!(!is_held(0, 0));
    // 648,000,000 lies between 25 * 5,091² and 25 * 5,092².
    assert!(is_held(1_000, 5_091));
    assert!(!is_held(1_000, 5_092));
    assert!(is_held(1, 0));
    assert!(is_held(-1, 0));
    assert!(!is_held(1, 6));
    assert!(is_held(1, 5));
    assert!(!is_held(707, 3_600));
    assert!(is_held(708, 3_600));
    assert!(!is_held(-707, 3_600));
    assert!(is_held(-708, 3_600));
    assert!(is_held(550_000, 25_000));
}

#[test]
fn the_first_and_the_first_after_a_gap_stand_as_recorded() {
    let gap = missing_with_values();
    let jump = [
        measured(0, 90_000, 0, 0),
        gap,
        measured(0, 500, 0, 0),
        measured(0, 501, 0, 0),
    ];
    assert_eq!(corrected(&jump), [Some(90_000), None, Some(500), Some(500)]);
    let first_missing = [gap, gap, check(0, -50_000, 0, 0)];
    assert_eq!(corrected(&first_missing), [None, None, Some(-50_000)]);
}

#[test]
fn the_change_is_of_recorded_altitude_and_the_held_value_the_corrected_one() {
    // At speed 3,600 a change of 708 is held.
    let seconds = [0, 708, 1_416, 1_500, 2_300, 2_300].map(|a| measured(3_600, a, 0, 0));
    // 708 held at 0; 1,416 held at 0; 1,500 is 84 from 1,416 and stands; 2,300 held at 1,500;
    // 2,300 again stands.
    let expected = [0, 0, 0, 1_500, 1_500, 2_300].map(Some);
    assert_eq!(corrected(&seconds), expected);
    assert_eq!(climb(&corrected(&seconds)), 2_300);
}

#[test]
fn the_speed_is_that_of_this_second() {
    let up = [measured(0, 0, 0, 0), measured(3_600, 707, 0, 0)];
    assert_eq!(corrected(&up), [Some(0), Some(707)]);
    let up = [measured(3_600, 0, 0, 0), measured(0, 707, 0, 0)];
    assert_eq!(corrected(&up), [Some(0), Some(0)]);
}

#[test]
fn climb_adds_upward_steps_alone_and_passes_over_missing_seconds() {
    assert_eq!(climb(&[]), 0);
    assert_eq!(climb(&[Some(5), Some(3), Some(10), Some(-2), Some(1)]), 10);
    assert_eq!(climb(&[None, Some(5), None, None, Some(9), None]), 4);
    assert_eq!(climb(&[Some(9), None, Some(5)]), 0);
}

#[test]
fn check_seconds_climb_too() {
    let seconds = [
        check(3_600, 0, 0, 0),
        measured(3_600, 100, 0, 0),
        check(3_600, 300, 0, 0),
    ];
    assert_eq!(climb(&corrected(&seconds)), 300);
}
