//! "The sixteen reasons": each on both sides of its border, from figures that set none.

use crate::as_it_stands::{each_reason, reasons};
use oracle::numbers::{MOTORWAY, RURAL, URBAN};
use oracle::reasons::{BinFigures, ClassFigures, Figures, Tally};

fn bin(seconds: i128, distance: i128, t: i128, q: i128) -> BinFigures {
    let tally = Tally {
        seconds,
        distance,
        co2: 0,
        nox: 0,
    };
    BinFigures {
        tally,
        m: 100,
        t,
        q,
    }
}

/// Figures that set no reason.
fn none() -> Figures {
    Figures {
        seconds: 6_000,
        missing: 59,
        missing_in_a_row: 30,
        bins: [
            bin(4_000, 10_000_000, 2_000_000_000, 400_000_000),
            bin(1_261, 10_000_000, 1_000_000_000, 600_000_000),
            bin(680, 10_000_000, 180_000_000, 700_000_000),
        ],
        total: Tally {
            seconds: 5_941,
            distance: 30_000_000,
            co2: 0,
            nox: 0,
        },
        urban_below_100: 400,
        above_10_000: 400,
        above_14_500: 0,
        above_16_000: 0,
        first_altitude: 0,
        last_altitude: 0,
        highest_corrected: 0,
        climb: 0,
        classes: [ClassFigures {
            windows: 10,
            inside: 10,
        }; 3],
    }
}

/// The verdict after a change of the figures that set none.
fn after(change: impl Fn(&mut Figures)) -> u16 {
    let mut figures = none();
    change(&mut figures);
    reasons(&figures)
}

/// Whether exactly this reason is set, or none.
fn alone(reason: u16, change: impl Fn(&mut Figures)) -> bool {
    let verdict = after(change);
    assert!(verdict == 0 || verdict == 1 << reason, "{verdict:04x}");
    verdict != 0
}

/// Whether this reason is among those set.
fn among(reason: usize, change: impl Fn(&mut Figures)) -> bool {
    let mut figures = none();
    change(&mut figures);
    each_reason(&figures)[reason]
}

#[test]
fn none_is_set() {
    assert_eq!(after(|_| ()), 0);
}

#[test]
fn reason_0_seconds() {
    for (n, set) in [(5_399, true), (5_400, false), (7_200, false), (7_201, true)] {
        let seconds = |f: &mut Figures| {
            f.seconds = n;
            f.missing = 0;
        };
        assert_eq!(alone(0, seconds), set, "{n}");
    }
}

#[test]
fn reason_1_missing() {
    for (missing, set) in [(0, false), (59, false), (60, true), (61, true)] {
        assert_eq!(alone(1, |f| f.missing = missing), set, "{missing}");
    }
    assert!(!alone(1, |f| (f.missing, f.seconds) = (59, 5_901)));
    assert!(alone(1, |f| (f.missing, f.seconds) = (59, 5_900)));
    for (run, set) in [(30, false), (31, true)] {
        assert_eq!(alone(1, |f| f.missing_in_a_row = run), set, "{run}");
    }
}

#[test]
fn reason_2_distance_of_each_part() {
    for part in [URBAN, RURAL, MOTORWAY] {
        for (s, set) in [(5_759_999, true), (5_760_000, false)] {
            assert_eq!(
                among(2, |f| f.bins[part].tally.distance = s),
                set,
                "{part} {s}"
            );
        }
    }
    assert!(among(2, |f| f.bins[RURAL] = BinFigures::default()));
}

#[test]
fn reason_3_share_of_each_part() {
    let shares = [(URBAN, 29, 44), (RURAL, 23, 43), (MOTORWAY, 23, 43)];
    for (part, low, high) in shares {
        for (share, set) in [
            (low * 100 - 1, true),
            (low * 100, false),
            (high * 100, false),
            (high * 100 + 1, true),
        ] {
            let distances = |f: &mut Figures| {
                f.total.distance = 10_000;
                // The two others stay inside whatever this one is.
                for other in [URBAN, RURAL, MOTORWAY] {
                    f.bins[other].tally.distance = 3_300;
                }
                f.bins[part].tally.distance = share;
            };
            assert_eq!(among(3, distances), set, "{part} {share}");
        }
    }
}

#[test]
fn reason_3_is_not_set_without_distance() {
    let standing = |f: &mut Figures| {
        f.total.distance = 0;
        for part in [URBAN, RURAL, MOTORWAY] {
            f.bins[part].tally.distance = 0;
        }
    };
    assert!(!among(3, standing));
    assert!(among(2, standing));
    assert!(among(10, standing));
}

#[test]
fn reason_4_urban_mean() {
    for (s, set) in [
        (5_999_999, true),
        (6_000_000, false),
        (16_000_000, false),
        (16_000_001, true),
    ] {
        assert_eq!(among(4, |f| f.bins[URBAN].tally.distance = s), set, "{s}");
    }
}

#[test]
fn reason_5_urban_seconds_below_100() {
    for (count, set) in [(239, true), (240, false), (1_200, false), (1_201, true)] {
        assert_eq!(alone(5, |f| f.urban_below_100 = count), set, "{count}");
    }
    // 6 and 30 percent of 4,001 are 240.06 and 1,200.3.
    for (count, set) in [(240, true), (241, false), (1_200, false), (1_201, true)] {
        let counts = |f: &mut Figures| {
            f.bins[URBAN].tally.seconds = 4_001;
            f.urban_below_100 = count;
        };
        assert_eq!(alone(5, counts), set, "{count}");
    }
}

#[test]
fn an_empty_urban_bin_sets_neither_4_nor_5() {
    let empty = |f: &mut Figures| {
        f.bins[URBAN] = BinFigures::default();
        f.urban_below_100 = 0;
    };
    assert!(!among(4, empty));
    assert!(!among(5, empty));
    assert!(among(2, empty));
    assert!(among(11, empty));
    assert!(!among(12, empty));
    assert!(!among(13, empty));
}

#[test]
fn reason_6_seconds_above_10_000() {
    for (count, set) in [(0, true), (299, true), (300, false)] {
        assert_eq!(alone(6, |f| f.above_10_000 = count), set, "{count}");
    }
}

#[test]
fn reason_7_speeds_above() {
    assert!(alone(7, |f| f.above_16_000 = 1));
    // 3 percent of 680 are 20.4, of 700 are 21, of 3,333 are 99.99, of 3,334 are 100.02.
    for (seconds, count, set) in [
        (3_333, 100, true),
        (3_334, 100, false),
        (680, 20, false),
        (680, 21, true),
        (700, 21, false),
        (700, 22, true),
    ] {
        let counts = |f: &mut Figures| {
            f.bins[MOTORWAY].tally.seconds = seconds;
            f.above_14_500 = count;
        };
        assert_eq!(among(7, counts), set, "{seconds} {count}");
    }
    assert!(!among(7, |f| f.bins[MOTORWAY] = BinFigures::default()));
}

#[test]
fn reason_8_first_and_last_altitude_either_way() {
    for (difference, set) in [(10_000, false), (10_001, true)] {
        assert_eq!(alone(8, |f| f.first_altitude = difference), set);
        assert_eq!(alone(8, |f| f.last_altitude = difference), set);
        assert_eq!(alone(8, |f| f.first_altitude = -difference), set);
        let both = |f: &mut Figures| {
            f.first_altitude = 70_000;
            f.last_altitude = 70_000 - difference;
        };
        assert_eq!(alone(8, both), set);
    }
}

#[test]
fn reason_9_highest_corrected_altitude() {
    for (altitude, set) in [(-50_000, false), (130_000, false), (130_001, true)] {
        assert_eq!(alone(9, |f| f.highest_corrected = altitude), set);
    }
}

#[test]
fn reason_10_climb() {
    for (climb, set) in [(99_999, false), (100_000, true), (100_001, true)] {
        assert_eq!(alone(10, |f| f.climb = climb), set, "{climb}");
    }
    for (distance, set) in [(29_999_999, true), (30_000_000, true), (30_000_001, false)] {
        let figures = |f: &mut Figures| {
            f.climb = 100_000;
            f.total.distance = distance;
        };
        assert_eq!(alone(10, figures), set, "{distance}");
    }
}

#[test]
fn reason_11_products_of_each_bin() {
    for part in [URBAN, RURAL, MOTORWAY] {
        for (m, set) in [(0, true), (99, true), (100, false)] {
            assert_eq!(alone(11, |f| f.bins[part].m = m), set, "{part} {m}");
        }
    }
}

#[test]
fn reason_12_each_bin_with_enough_products() {
    for part in [URBAN, RURAL, MOTORWAY] {
        let lively = |f: &mut Figures| f.bins[part].q = 62_500_000_000;
        assert!(alone(12, lively));
        let too_few = |f: &mut Figures| {
            lively(f);
            f.bins[part].m = 99;
        };
        assert!(alone(11, too_few));
    }
}

#[test]
fn reason_13_each_bin_with_enough_products() {
    for part in [URBAN, RURAL, MOTORWAY] {
        let dull = |f: &mut Figures| f.bins[part].t = 0;
        assert!(alone(13, dull));
        let too_few = |f: &mut Figures| {
            dull(f);
            f.bins[part].m = 99;
        };
        assert!(alone(11, too_few));
    }
    // Motorway: T < 18S.
    for (t, set) in [(179_999_999, true), (180_000_000, false)] {
        assert_eq!(alone(13, |f| f.bins[MOTORWAY].t = t), set);
    }
}

#[test]
fn reasons_14_and_15_each_class() {
    for class in [URBAN, RURAL, MOTORWAY] {
        for (windows, inside, verdict) in [
            (0, 0, 0x4000),
            (1, 0, 0x8000),
            (1, 1, 0),
            (10, 4, 0x8000),
            (10, 5, 0),
            (11, 5, 0x8000),
            (11, 6, 0),
        ] {
            let found = after(|f| f.classes[class] = ClassFigures { windows, inside });
            assert_eq!(found, verdict, "{class} {windows} {inside}");
        }
    }
}
