//! "From concentration to mass".

use crate::as_it_stands::{co2_mass, nox_mass, reading_of_kind};
use crate::build::refused;
use crate::random::Random;
use oracle::mass::{whole_part, Reading, Setting};
use oracle::Refusal;

const SETTING: Setting = Setting {
    u: 1.0 / 1_024.0,
    factor: 0.5,
    flow: 0.125,
};

fn co2_of_kind(kind: u8, value: f64, setting: Setting) -> Result<u32, Refusal> {
    co2_mass(reading_of_kind(kind, value)?, setting)
}

fn nox_of_kind(kind: u8, value: f64, setting: Setting) -> Result<u32, Refusal> {
    nox_mass(reading_of_kind(kind, value)?, setting)
}

/// Numbers that no range contains.
fn never_in_range() -> [f64; 7] {
    [
        f64::NAN,
        -f64::NAN,
        f64::INFINITY,
        f64::NEG_INFINITY,
        -f64::MIN_POSITIVE,
        -f64::from_bits(1),
        f64::MAX,
    ]
}

#[test]
fn four_kinds_in_order() {
    assert_eq!(reading_of_kind(0, 1.5), Ok(Reading::WetPpm(1.5)));
    assert_eq!(reading_of_kind(1, 1.5), Ok(Reading::DryPpm(1.5)));
    assert_eq!(reading_of_kind(2, 1.5), Ok(Reading::WetPercent(1.5)));
    assert_eq!(reading_of_kind(3, 1.5), Ok(Reading::DryPercent(1.5)));
    for kind in 4..=u8::MAX {
        assert_eq!(reading_of_kind(kind, 1.5), refused(9, 0));
    }
}

#[test]
fn exact_masses_of_each_kind() {
    // All products exact: 1,024 ppm / 1,024 * 1/8 is 1/8 g; dry is half; a percent is 10,000 ppm.
    assert_eq!(co2_of_kind(0, 1_024.0, SETTING), Ok(125));
    assert_eq!(co2_of_kind(1, 1_024.0, SETTING), Ok(62));
    assert_eq!(co2_of_kind(2, 10.24, SETTING), Ok(12_500));
    assert_eq!(co2_of_kind(3, 10.24, SETTING), Ok(6_250));
    assert_eq!(nox_of_kind(0, 1_024.0, SETTING), Ok(125_000));
    assert_eq!(nox_of_kind(1, 1_024.0, SETTING), Ok(62_500));
    assert_eq!(nox_of_kind(2, 0.1024, SETTING), Ok(125_000));
    assert_eq!(nox_of_kind(3, 0.1024, SETTING), Ok(62_500));
}

/// Kind, value, u, factor, flow and the answer, which is one below that of exact decimals: the
/// roundings show. Answers found with exact fractions, each product rounded to the nearest f64.
type Row = (u8, f64, f64, f64, f64, u32);

#[test]
fn one_rounding_each_co2() {
    let rows: [Row; 8] = [
        (0, 712.5, 0.0052, 0.82, 1.0, 3_704),
        (0, 537.5, 0.0045, 0.75, 0.96, 2_321),
        (1, 325.0, 0.0042, 0.8, 1.0, 1_091),
        (1, 275.0, 0.0096, 0.75, 0.75, 1_484),
        (2, 4.4, 0.0026, 0.52, 0.23, 26_311),
        (2, 10.6, 0.0009, 0.72, 0.3, 28_619),
        (3, 3.75, 0.0087, 0.65, 0.16, 33_929),
        (3, 11.0, 0.0003, 0.9, 0.22, 6_533),
    ];
    for (kind, value, u, factor, flow, expected) in rows {
        let setting = Setting { u, factor, flow };
        assert_eq!(co2_of_kind(kind, value, setting), Ok(expected));
    }
}

#[test]
fn one_rounding_each_nox() {
    let rows: [Row; 8] = [
        (0, 1_164.0, 0.001, 0.73, 0.86, 1_001_039),
        (0, 219.6, 0.0043, 0.97, 0.35, 330_497),
        (1, 1_598.0, 0.0004, 0.82, 0.25, 131_035),
        (1, 475.0, 0.0059, 0.84, 0.86, 2_024_525),
        (2, 13.47, 0.0005, 0.73, 0.06, 4_040_999),
        (2, 10.89, 0.0003, 0.66, 0.2, 6_533_999),
        (3, 0.19, 0.0043, 0.71, 0.12, 696_083),
        (3, 0.52, 0.0005, 0.96, 0.29, 723_839),
    ];
    for (kind, value, u, factor, flow, expected) in rows {
        let setting = Setting { u, factor, flow };
        assert_eq!(nox_of_kind(kind, value, setting), Ok(expected));
    }
}

/// Dry percent to NOx: each other order of the five factors, each pair of them multiplied first, and
/// the exact product go wrong in at least one row. Answers found with exact fractions.
#[test]
fn in_this_order() {
    let rows: [Row; 11] = [
        (3, 3.27, 0.001, 0.98, 0.18, 5_768_280),
        (3, 1.17, 0.0003, 0.66, 0.96, 2_223_935),
        (3, 7.5, 0.0075, 0.74, 0.02, 8_324_999),
        (3, 1.21, 0.0038, 0.76, 0.19, 6_639_512),
        (3, 3.4, 0.0018, 0.53, 0.15, 4_865_400),
        (3, 0.02, 0.0052, 0.72, 0.36, 269_568),
        (3, 5.03, 0.0006, 0.68, 0.18, 3_694_031),
        (3, 0.75, 0.0033, 0.5, 0.71, 8_786_249),
        (3, 0.9, 0.0014, 0.85, 0.85, 9_103_499),
        (3, 3.68, 0.0092, 0.58, 0.03, 5_890_944),
        (3, 0.57, 0.0007, 0.57, 0.17, 386_630),
    ];
    for (kind, value, u, factor, flow, expected) in rows {
        let setting = Setting { u, factor, flow };
        assert_eq!(nox_of_kind(kind, value, setting), Ok(expected));
    }
}

#[test]
fn ranges_of_the_reading() {
    let still = Setting {
        flow: 0.0,
        ..SETTING
    };
    for kind in 0..4 {
        let most: f64 = if kind < 2 { 200_000.0 } else { 20.0 };
        for value in [0.0, -0.0, f64::from_bits(1), most] {
            assert_eq!(co2_of_kind(kind, value, still), Ok(0), "{kind} {value}");
            assert_eq!(nox_of_kind(kind, value, still), Ok(0), "{kind} {value}");
        }
        for value in never_in_range().into_iter().chain([most.next_up()]) {
            assert_eq!(
                co2_of_kind(kind, value, still),
                refused(9, 0),
                "{kind} {value}"
            );
            assert_eq!(
                nox_of_kind(kind, value, still),
                refused(9, 0),
                "{kind} {value}"
            );
        }
    }
}

#[test]
fn ranges_of_the_setting() {
    let in_range = |u: f64, factor: f64, flow: f64| {
        let setting = Setting { u, factor, flow };
        let co2 = co2_mass(Reading::WetPpm(0.0), setting);
        assert_eq!(co2, nox_mass(Reading::WetPpm(0.0), setting));
        assert!(co2 == Ok(0) || co2 == refused(9, 0));
        co2.is_ok()
    };
    let smallest = f64::from_bits(1);
    for u in [smallest, 0.01, 0.01f64.next_down()] {
        assert!(in_range(u, 1.0, 1.0), "{u}");
    }
    for factor in [smallest, 1.0, 1.0f64.next_down()] {
        assert!(in_range(0.01, factor, 1.0), "{factor}");
    }
    for flow in [0.0, -0.0, smallest, 1.0, 1.0f64.next_down()] {
        assert!(in_range(0.01, 1.0, flow), "{flow}");
    }
    let ends = [0.0, -0.0, 0.01f64.next_up(), 1.0f64.next_up()];
    for bad in never_in_range().into_iter().chain(ends) {
        assert!(!in_range(bad, 1.0, 1.0), "u {bad}");
        if bad != 0.01f64.next_up() {
            assert!(!in_range(0.01, bad, 1.0), "factor {bad}");
            assert!(bad == 0.0 || !in_range(0.01, 1.0, bad), "flow {bad}");
        }
    }
}

#[test]
fn an_unused_factor_is_still_judged() {
    let setting = Setting {
        factor: 0.0,
        ..SETTING
    };
    assert_eq!(co2_mass(Reading::WetPpm(1.0), setting), refused(9, 0));
}

#[test]
fn negative_zero_counts_as_zero() {
    let backwards = Setting {
        flow: -0.0,
        ..SETTING
    };
    for kind in 0..4 {
        assert_eq!(co2_of_kind(kind, -0.0, SETTING), Ok(0));
        assert_eq!(nox_of_kind(kind, 1.0, backwards), Ok(0));
        assert_eq!(co2_of_kind(kind, -0.0, backwards), Ok(0));
    }
}

#[test]
fn above_the_seconds_range_is_10() {
    let full = Setting {
        flow: 1.0,
        ..SETTING
    };
    // ppm / 1,024 g/s; the whole part decides, not the product.
    assert_eq!(co2_mass(Reading::WetPpm(102_400.0), full), Ok(100_000));
    assert_eq!(co2_mass(Reading::WetPpm(102_401.0), full), Ok(100_000));
    assert_eq!(co2_mass(Reading::WetPpm(102_402.0), full), refused(10, 0));
    assert_eq!(nox_mass(Reading::WetPpm(10_240.0), full), Ok(10_000_000));
    assert_eq!(nox_mass(Reading::WetPpm(10_240.001), full), Ok(10_000_000));
    assert_eq!(nox_mass(Reading::WetPpm(10_240.002), full), refused(10, 0));
    let most = Setting {
        u: 0.01,
        factor: 1.0,
        flow: 1.0,
    };
    for reading in [Reading::DryPpm(200_000.0), Reading::DryPercent(20.0)] {
        assert_eq!(co2_mass(reading, most), refused(10, 0));
        assert_eq!(nox_mass(reading, most), refused(10, 0));
    }
}

#[test]
fn nine_comes_before_ten() {
    let bad = Setting {
        u: 0.01,
        factor: 1.0f64.next_up(),
        flow: 1.0,
    };
    assert_eq!(nox_mass(Reading::WetPpm(200_000.0), bad), refused(9, 0));
    let most = Setting { factor: 1.0, ..bad };
    assert_eq!(nox_mass(Reading::WetPpm(200_001.0), most), refused(9, 0));
}

#[test]
fn whole_part_of_any_size() {
    let mut random = Random::seeded(3);
    for _ in 0..50_000 {
        // Exponents from far below one to just below 2^127.
        let exponent = random.between(0, 1_023 + 126) as u64;
        let x = f64::from_bits((exponent << 52) + (random.next() >> 12));
        assert_eq!(whole_part(x), x as u128, "{x:e}");
    }
    for power in 0..127 {
        let x = 2f64.powi(power);
        assert_eq!(whole_part(x), 1 << power);
        assert_eq!(whole_part(x.next_down()), x.next_down() as u128);
        assert_eq!(whole_part(x.next_up()), x.next_up() as u128);
    }
    for below_one in [
        0.0,
        f64::from_bits(1),
        f64::MIN_POSITIVE,
        0.5,
        1.0f64.next_down(),
    ] {
        assert_eq!(whole_part(below_one), 0);
    }
    assert_eq!(whole_part(2_000_000.0f64.next_down()), 1_999_999);
}

#[test]
fn only_finite_numbers_without_sign_have_a_whole_part() {
    for x in [f64::NAN, f64::INFINITY, -0.0, -1.0, f64::NEG_INFINITY] {
        let asked = std::panic::catch_unwind(|| whole_part(x));
        let message = *asked.unwrap_err().downcast::<&str>().unwrap();
        assert_eq!(message, "no whole part", "{x}");
    }
}
