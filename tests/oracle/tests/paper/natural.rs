//! Natural numbers of any size against numbers that fit.

use crate::random::Random;
use oracle::natural::{halved, natural, product, sum};

/// A number of any length up to 62 bits, often next to a turn of a digit.
fn any_length(random: &mut Random) -> i128 {
    let bits = random.between(0, 62);
    let value = (random.next() >> (63 - bits)) >> 1;
    let near = (1i128 << bits) + i128::from(random.between(-1, 1));
    if random.between(0, 1) == 0 {
        near
    } else {
        i128::from(value)
    }
}

#[test]
fn sums_products_and_order() {
    let mut random = Random::seeded(2);
    for _ in 0..20_000 {
        let [a, b] = [0; 2].map(|_| any_length(&mut random));
        assert_eq!(sum(&natural(a), &natural(b)), natural(a + b));
        assert_eq!(product(&[a, b]), natural(a * b));
        assert_eq!(natural(a).cmp(&natural(b)), a.cmp(&b));
        let c = a * b;
        assert_eq!(natural(c).cmp(&natural(a)), c.cmp(&a));
    }
    assert_eq!(product(&[]), natural(1));
    assert_eq!(product(&[7, 0, 9]), natural(0));
}

#[test]
fn beyond_128_bits() {
    // (2^127 - 1)² = 2^254 - 2^128 + 1
    let most = i128::MAX;
    let power_126 = 1i128 << 126;
    let square = product(&[most, most]);
    let power_128 = product(&[power_126, 4]);
    let power_254 = product(&[power_126, power_126, 4]);
    assert_eq!(sum(&square, &power_128), sum(&power_254, &natural(1)));
    assert!(square < power_254);
    assert!(power_254 < product(&[most, most, 2]));
}

#[test]
fn halved_and_small() {
    let mut random = Random::seeded(3);
    for _ in 0..2_000 {
        let a = any_length(&mut random) * any_length(&mut random).max(1);
        let times = random.between(0, 130) as usize;
        let expected = (a as u128).checked_shr(times as u32).unwrap_or(0);
        assert_eq!(halved(&natural(a), times).small(), Some(expected));
    }
    let power_128 = product(&[1 << 126, 4]);
    assert_eq!(power_128.small(), None);
    assert_eq!(halved(&power_128, 1).small(), Some(1 << 127));
    assert_eq!(sum(&power_128, &natural(9)).low_half(), 9);
}

#[test]
#[should_panic(expected = "a natural number")]
fn a_negative_number_is_none() {
    natural(-1);
}
