//! "Dynamics": bins, D, products, percentile, too lively, too dull.

use crate::as_it_stands::{
    bin, d_of_second, percentile, product, products, q, too_dull, too_lively,
};
use crate::build::{check, measured, missing_with_values, of_speeds, refused, Lanes, GUARD_32};
use crate::random::Random;
use oracle::numbers::{MOTORWAY, RURAL, URBAN};
use oracle::second::Second;

/// The D of every second.
fn all_d(seconds: &[Second]) -> Vec<Option<i128>> {
    let lanes = Lanes::of(seconds);
    let one = |index| d_of_second(lanes.trip(), index).unwrap();
    (0..seconds.len()).map(one).collect()
}

#[test]
fn bin_borders() {
    for (speed, expected) in [
        (0, URBAN),
        (6_000, URBAN),
        (6_001, RURAL),
        (9_000, RURAL),
        (9_001, MOTORWAY),
        (25_000, MOTORWAY),
    ] {
        assert_eq!(bin(speed), expected, "{speed}");
    }
}

#[test]
fn d_is_next_minus_previous_and_zero_outside() {
    assert_eq!(
        all_d(&of_speeds(&[1_000, 2_000, 1_500, 400])),
        [Some(2_000), Some(500), Some(-1_600), Some(-1_500)]
    );
    assert_eq!(
        all_d(&of_speeds(&[3_000, 5_000])),
        [Some(5_000), Some(-3_000)]
    );
}

#[test]
fn a_trip_of_one_second_has_d_0() {
    assert_eq!(all_d(&[measured(25_000, 0, 0, 0)]), [Some(0)]);
    assert_eq!(all_d(&[check(7, 0, 0, 0)]), [Some(0)]);
}

#[test]
fn a_missing_second_has_no_d_nor_has_one_beside_it() {
    let s = measured(500, 0, 0, 0);
    let gap = missing_with_values();
    assert_eq!(
        all_d(&[s, s, gap, s, s, s, gap, s, gap, gap]),
        [
            Some(500),
            None,
            None,
            None,
            Some(0),
            None,
            None,
            None,
            None,
            None
        ]
    );
    assert_eq!(all_d(&[gap, s, s]), [None, None, Some(-500)]);
    assert_eq!(all_d(&[s, s, gap]), [Some(500), None, None]);
}

#[test]
fn a_check_second_counts_with_its_speed() {
    let lanes = [
        check(1_000, 0, 9, 9),
        measured(0, 0, 0, 0),
        check(3_000, 0, 9, 9),
    ];
    assert_eq!(all_d(&lanes), [Some(0), Some(2_000), Some(0)]);
}

/// "(1, 2, 3, 4)": every set of faults gives the first of them.
#[test]
fn order_of_refusals_of_d() {
    for faults in 0..16 {
        let [differ, many, value, none] = [1, 2, 4, 8].map(|bit| faults & bit != 0);
        let count = if many { 8_193 } else { 8_192 };
        let ordinary = if none {
            Second::missing()
        } else {
            measured(1, 0, 0, 0)
        };
        let mut seconds = vec![ordinary; count];
        if value {
            seconds[100].state = 0;
            seconds[101].state = 4;
        }
        let whole = Lanes::of(&seconds);
        for lane in 0..5 {
            let mut lanes = whole.clone();
            match lane {
                _ if !differ => (),
                0 => lanes.states.truncate(8_191),
                1 => lanes.speeds.truncate(8_191),
                2 => lanes.altitudes.truncate(8_191),
                3 => lanes.co2.truncate(8_191),
                _ => lanes.nox.truncate(8_191),
            }
            let expected = if differ {
                refused(1, 0)
            } else if many {
                refused(2, 0)
            } else if value {
                refused(3, 100)
            } else if none {
                refused(4, 0)
            } else {
                Ok(Some(-1))
            };
            assert_eq!(d_of_second(lanes.trip(), 8_191), expected, "{faults:04b}");
        }
    }
}

#[test]
fn an_index_past_the_end_is_4_after_3() {
    let mut lanes = Lanes::of(&of_speeds(&[1, 2]));
    assert_eq!(d_of_second(lanes.trip(), 1), Ok(Some(-1)));
    assert_eq!(d_of_second(lanes.trip(), 2), refused(4, 0));
    assert_eq!(d_of_second(lanes.trip(), usize::MAX), refused(4, 0));
    lanes.nox[1] = 10_000_001;
    assert_eq!(d_of_second(lanes.trip(), 2), refused(3, 1));
    assert_eq!(d_of_second(lanes.trip(), 0), refused(3, 1));
    let empty = Lanes::of(&[]);
    assert_eq!(d_of_second(empty.trip(), 0), refused(4, 0));
}

#[test]
fn products_by_bin_in_order() {
    // D: 100, 6,050, 9,400, 9,950, 100, -9,500, -9,600
    let lanes = Lanes::of(&of_speeds(&[50, 100, 6_100, 9_500, 16_050, 9_600, 6_450]));
    let [urban, rural, motorway] = products(lanes.trip());
    assert_eq!(urban, [50 * 100, 100 * 6_050]);
    assert_eq!(rural, [6_100 * 9_400]);
    assert_eq!(motorway, [9_500 * 9_950, 16_050 * 100]);
}

#[test]
fn a_product_of_speed_0_counts_as_0() {
    let lanes = Lanes::of(&of_speeds(&[0, 73, 0]));
    assert_eq!(products(lanes.trip()), [vec![0], vec![], vec![]]);
    assert_eq!(product(0, 73), Some(0));
    assert_eq!(product(25_000, 72), None);
    assert_eq!(product(25_000, -73), None);
    assert_eq!(product(25_000, 25_000), Some(625_000_000));
}

#[test]
fn q_with_and_without_a_remainder() {
    // 95, 104.5 (r 50), 114 (r 0), 95.95 (r 95) and 7,782.4 (r 40) of squares.
    for (m, expected) in [
        (100, 100 * 95 * 95),
        (110, 100 * 104 * 104 + 50 * (105 * 105 - 104 * 104)),
        (120, 100 * 114 * 114),
        (101, 100 * 95 * 95 + 95 * (96 * 96 - 95 * 95)),
        (
            8_192,
            100 * 7_782 * 7_782 + 40 * (7_783 * 7_783 - 7_782 * 7_782),
        ),
    ] {
        let squares: Vec<u32> = (1..=m).map(|x| x * x).collect();
        assert_eq!(q(&squares), expected, "M {m}");
    }
}

#[test]
fn percentile_ranks_into_the_lane_and_touches_no_more() {
    let mut random = Random::seeded(8);
    for _ in 0..100 {
        let count = random.between(100, 300) as usize;
        let most = [3, 625_000_000][random.between(0, 1) as usize];
        let values: Vec<u32> = (0..count).map(|_| random.between(0, most) as u32).collect();
        let mut ranks = vec![GUARD_32; count + 2];
        let answer = percentile(&values, &mut ranks).unwrap();
        // Each value stands as often as it was given, after the ones below it.
        for (place, &x) in ranks[..count].iter().enumerate() {
            let below = values.iter().filter(|&&value| value < x).count();
            let up_to = values.iter().filter(|&&value| value <= x).count();
            assert!(below <= place && place < up_to);
        }
        assert_eq!(ranks[count..], [GUARD_32; 2]);
        assert_eq!(answer, q(&ranks[..count]));
    }
}

/// "Percentile: 2, 12, 6, 3": every set of faults gives the first of them.
#[test]
fn order_of_refusals_of_the_percentile() {
    for count in [0, 1, 99, 100, 8_192, 8_193] {
        for faults in 0..4 {
            let [short, value] = [1, 2].map(|bit| faults & bit != 0);
            let mut values = vec![625_000_000; count];
            if value && count > 1 {
                values[count - 2] = 625_000_001;
                values[count - 1] = u32::MAX;
            }
            let places = if short {
                count.saturating_sub(1)
            } else {
                count
            };
            let mut ranks = vec![GUARD_32; places];
            let expected = if count > 8_192 {
                refused(2, 0)
            } else if count < 100 {
                refused(12, 0)
            } else if short {
                refused(6, 0)
            } else if value {
                refused(3, count - 2)
            } else {
                Ok(62_500_000_000)
            };
            assert_eq!(
                percentile(&values, &mut ranks),
                expected,
                "{count} {faults:02b}"
            );
            if expected.is_err() {
                assert!(ranks.iter().all(|&rank| rank == GUARD_32));
            }
        }
    }
}

/// Numbers of seconds, small, of a full trip, and so large that the products pass 64 and 128 bits.
const SECONDS: [i128; 6] = [1, 3, 8_192, 1 << 32, u64::MAX as i128, 1 << 100];

#[test]
fn too_lively_on_both_sides_of_its_turn() {
    // At S = 7,460N the first line: 5Q > 3,186,293,760.
    // At S = 7,461N the second: 25Q > 15,877,336,176.
    for n in SECONDS {
        assert!(!too_lively(7_460 * n, n, 637_258_752));
        assert!(too_lively(7_460 * n, n, 637_258_753));
        assert!(!too_lively(7_461 * n, n, 635_093_447));
        assert!(too_lively(7_461 * n, n, 635_093_448));
    }
    // One step past the turn the second line applies: 25Q > 15,876,855,360 + 480,816 / N.
    assert!(!too_lively(7_460 * 8_192 + 1, 8_192, 635_074_216));
    assert!(too_lively(7_460 * 8_192 + 1, 8_192, 635_074_217));
    for n in SECONDS.into_iter().filter(|&n| n > 480_816) {
        assert!(!too_lively(7_460 * n + 1, n, 635_074_214));
        assert!(too_lively(7_460 * n + 1, n, 635_074_215));
    }
}

#[test]
fn too_lively_needs_more_than_the_limit() {
    // First line: S = 0 has the limit 5 * 374,284,800, S = 7,459N one below 5 * 637,223,501.
    // Second: S = 7,475N has 25 * 635,362,704, S = 7,464N one below 25 * 635,151,145.
    for n in SECONDS {
        assert!(!too_lively(0, n, 374_284_800));
        assert!(too_lively(0, n, 374_284_801));
        assert!(!too_lively(7_459 * n, n, 637_223_500));
        assert!(too_lively(7_459 * n, n, 637_223_501));
        assert!(!too_lively(7_475 * n, n, 635_362_704));
        assert!(too_lively(7_475 * n, n, 635_362_705));
        assert!(!too_lively(7_464 * n, n, 635_151_144));
        assert!(too_lively(7_464 * n, n, 635_151_145));
    }
}

#[test]
fn too_lively_sees_the_lowest_bit_of_large_numbers() {
    // S = 5k more than 0 raises the first limit, 5QN, by 5 * 176,256k.
    for n in [1 << 40, 1 << 63, 1 << 90] {
        let q = 374_284_800 + 176_256 * 5;
        assert!(!too_lively(25 * n, n, q));
        assert!(too_lively(25 * n - 1, n, q));
        assert!(!too_lively(25 * n + 1, n, q));
    }
}

#[test]
fn too_dull_on_both_sides_of_its_turn() {
    // At S = 9,405N the first line: 3,125T < 529,454,475N, so T below 169,425.432N.
    // Past it the second: T < 18S.
    for n in SECONDS {
        assert!(too_dull(9_405 * n, n, 169_425 * n));
        assert!(!too_dull(9_405 * n, n, 169_426 * n));
        assert!(too_dull(9_406 * n, n, 169_308 * n - 1));
        assert!(!too_dull(9_406 * n, n, 169_308 * n));
    }
    for n in SECONDS.into_iter().filter(|&n| n >= 8_192) {
        let s = 9_405 * n + 1;
        assert!(too_dull(s, n, 18 * s - 1));
        assert!(!too_dull(s, n, 18 * s));
    }
}

#[test]
fn too_dull_needs_less_than_the_limit() {
    // S = 3,125N: 394,875 - 112,500 = 282,375, so T = 282,375N meets the limit.
    for n in SECONDS {
        assert!(too_dull(3_125 * n, n, 282_375 * n - 1));
        assert!(!too_dull(3_125 * n, n, 282_375 * n));
    }
    assert!(!too_dull(0, 0, 0));
    assert!(!too_dull(0, 5, 0));
    assert!(too_dull(1, 1, 0));
}

/// The rules in plain i128, for numbers that fit.
#[test]
fn both_rules_against_plain_arithmetic() {
    let mut random = Random::seeded(9);
    let mut lively_and_dull = [0; 4];
    for _ in 0..20_000 {
        let n = i128::from(random.between(1, 8_192));
        let s = n * i128::from(random.between(0, 15_000)) + i128::from(random.between(0, 100));
        let q = i128::from(random.between(0, 1_500_000_000));
        let t = s * i128::from(random.between(0, 120)) + i128::from(random.between(0, 1_000));
        let lively = if s <= 7_460 * n {
            5 * q * n > 176_256 * s + 1_871_424_000 * n
        } else {
            25 * q * n > 480_816 * s + 12_289_968_000 * n
        };
        let dull = if s <= 9_405 * n {
            3_125 * t * n + 36 * s * s < 394_875 * s * n
        } else {
            t < 18 * s
        };
        assert_eq!(too_lively(s, n, q), lively);
        assert_eq!(too_dull(s, n, t), dull);
        lively_and_dull[usize::from(lively) + 2 * usize::from(dull)] += 1;
    }
    assert!(lively_and_dull.iter().all(|&count| count > 1_000));
}
