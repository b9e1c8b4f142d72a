//! Kept seconds, windows by adding, and the figures of a window as release 1 rounds them.

use crate::as_it_stands::{
    class, curve, figure, is_inside, kept, mean_speed, window_figures, windows,
};
use crate::build::{check, measured, missing_with_values, Lanes, PRINTED_PLAN};
use crate::random::Random;
use oracle::fraction::whole;
use oracle::numbers::{MOTORWAY, RURAL, URBAN};
use oracle::windows::WindowFigures;
use oracle::Plan;

#[test]
fn kept_is_state_1_and_speed_at_least_100() {
    let lanes = Lanes::of(&[
        measured(99, 0, 1, 0),
        measured(100, 0, 2, 0),
        check(5_000, 0, 3, 0),
        missing_with_values(),
        measured(25_000, 0, 0, 0),
        measured(101, 0, 5, 0),
    ]);
    assert_eq!(kept(lanes.trip()), (vec![100, 25_000, 101], vec![2, 0, 5]));
}

#[test]
fn each_window_is_the_shortest_that_reaches_the_reference() {
    let mut random = Random::seeded(7);
    for _ in 0..2_000 {
        let count = random.between(0, 12) as usize;
        let masses: Vec<u32> = (0..count)
            .map(|_| random.between(-1, 7).max(0) as u32)
            .collect();
        let reference = random.between(1, 15) as u32;
        let found = windows(&masses, reference);
        for first in 0..count {
            let reaches: Vec<usize> = (first..count)
                .filter(|&last| masses[first..=last].iter().sum::<u32>() >= reference)
                .collect();
            let of_first: Vec<usize> = found.iter().filter(|w| w.0 == first).map(|w| w.1).collect();
            assert_eq!(
                of_first,
                reaches.first().copied().into_iter().collect::<Vec<_>>()
            );
        }
        assert!(found.windows(2).all(|pair| pair[0].0 < pair[1].0));
    }
}

#[test]
fn mean_speed_is_cut_down() {
    assert_eq!(mean_speed(100, 1), 1_000);
    assert_eq!(mean_speed(200, 3), 666);
    assert_eq!(mean_speed(13_499, 3), 44_996);
}

#[test]
fn class_borders() {
    let table = [
        (1_000, Some(URBAN)),
        (44_999, Some(URBAN)),
        (45_000, Some(RURAL)),
        (79_999, Some(RURAL)),
        (80_000, Some(MOTORWAY)),
        (144_999, Some(MOTORWAY)),
        (145_000, None),
        (250_000, None),
    ];
    for (v, expected) in table {
        assert_eq!(class(v), expected, "{v}");
    }
}

#[test]
fn curve_floors_towards_minus_infinity_on_every_stretch() {
    let falling_then_rising = PRINTED_PLAN;
    // -60,000 a stretch of 37,782; then 20,000 a stretch of 35,333.
    for (v, expected) in [
        (18_882, 200_000),
        (18_883, 199_998), // -1.58
        (18_881, 200_001), // 1.58
        (1_000, 228_397),  // 28,397.6
        (56_663, 140_001), // -59,998.4
        (56_664, 140_000),
        (56_665, 140_000), // 0.56
        (56_666, 140_001), // 1.13
        (91_997, 160_000),
        (250_000, 249_436), // 109,436.5
    ] {
        assert_eq!(curve(&falling_then_rising, v), expected, "{v}");
    }
    let rising_then_falling = Plan {
        e1: 140_000,
        e2: 200_000,
        e3: 140_000,
        ..PRINTED_PLAN
    };
    for (v, expected) in [
        (18_881, 139_998), // -1.58
        (18_883, 140_001), // 1.58
        (56_665, 199_998), // -1.69
        (91_997, 140_000),
        (250_000, -128_310), // -328,309.5
    ] {
        assert_eq!(curve(&rising_then_falling, v), expected, "{v}");
    }
    let steepest = Plan {
        e1: 1,
        e2: 2_000_000,
        e3: 1,
        ..PRINTED_PLAN
    };
    assert_eq!(curve(&steepest, 1_000), -946_587); // -946,587.8 and 1
    assert_eq!(curve(&steepest, 250_000), -8_943_645); // -10,943,644.9
}

#[test]
fn the_two_stretches_meet_at_56_664() {
    let plan = Plan {
        e1: 1,
        e2: 500,
        e3: 2_000_000,
        ..PRINTED_PLAN
    };
    assert_eq!(curve(&plan, 56_664), 500);
    assert_eq!(curve(&plan, 56_665), 556); // 1,999,500 / 35,333 is 56.59
    assert_eq!(curve(&plan, 56_663), 499);
}

#[test]
fn figure_is_cut_down() {
    assert_eq!(figure(7, 7_200), 350);
    assert_eq!(figure(1, 360_001), 0);
    assert_eq!(figure(2, 7), 102_857);
    assert_eq!(figure(20_099_999, 100), 72_359_996_400);
}

#[test]
fn inside_includes_both_ends() {
    // Lower 25, upper 45 percent of c = 200.
    for (w, inside) in [(149, false), (150, true), (290, true), (291, false)] {
        assert_eq!(is_inside(w, 200, 25, 45), inside, "{w}");
    }
    // 75c = 15,075 and 145c = 29,145 of c = 201 fall between whole w.
    for (w, inside) in [(150, false), (151, true), (291, true), (292, false)] {
        assert_eq!(is_inside(w, 201, 25, 45), inside, "{w}");
    }
    for (w, inside) in [(0, true), (200, true), (201, false)] {
        assert_eq!(is_inside(w, 200, 100, 0), inside, "{w}");
    }
}

#[test]
fn inside_where_c_is_zero_or_negative() {
    assert!(is_inside(0, 0, 25, 45));
    assert!(!is_inside(1, 0, 25, 45));
    for w in [0, 1, 100] {
        assert!(!is_inside(w, -1, 100, 0), "{w}");
        assert!(!is_inside(w, -100, 25, 45), "{w}");
    }
}

#[test]
fn figures_of_a_window_from_its_part_of_the_lanes() {
    let plan = Plan {
        lower: 10,
        upper: [1, 2, 3],
        e1: 100_000,
        e2: 100_000,
        e3: 100_000,
        ..PRINTED_PLAN
    };
    let judged = |speeds: &[u16], co2: &[u32]| window_figures(&plan, speeds, co2);
    // One km each at the mean speeds of the classes: 101, 102, 103 percent are the most.
    let classes = [
        (1_500, URBAN, 101),
        (6_000, RURAL, 102),
        (9_000, MOTORWAY, 103),
    ];
    for (speed, class, most) in classes {
        let speeds = vec![speed; 360_000 / usize::from(speed)];
        for (co2, inside) in [(89_999, false), (90_000, true), (most * 1_000, true)] {
            let mut masses = vec![0; speeds.len()];
            masses[1] = co2;
            let expected = WindowFigures {
                v: whole(i128::from(speed) * 10),
                class: Some(class),
                c: whole(100_000),
                w: whole(co2.into()),
                inside,
            };
            assert_eq!(judged(&speeds, &masses), expected);
            masses[0] = most * 1_000 + 1 - co2;
            assert!(!judged(&speeds, &masses).inside);
        }
    }
    // 14,500 is too fast for a class, though w is near c.
    let fast = judged(&[14_500; 72], &[4_028; 72]);
    let expected = WindowFigures {
        v: whole(145_000),
        class: None,
        c: whole(100_000),
        w: whole(100_005),
        inside: false,
    };
    assert_eq!(fast, expected);
}
