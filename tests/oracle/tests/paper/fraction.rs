//! Fractions against products and quotients of whole numbers.

use crate::random::Random;
use oracle::bound::{above, at_least, at_most, below, Rounding};
use oracle::fraction::{fraction, whole};

#[test]
fn compared_by_cross_multiplying() {
    assert_eq!(fraction(2, 6), fraction(1, 3));
    assert_eq!(fraction(-4, 2), whole(-2));
    assert!(fraction(1, 3) < fraction(34, 100));
    assert!(fraction(-1, 3) > fraction(-34, 100));
    assert!(fraction(-1, 3) < whole(0) && whole(0) < fraction(1, 3));
    // Beyond what an f64 tells apart.
    let large = 1i128 << 60;
    assert!(fraction(large, large + 1) < fraction(large + 1, large + 2));
    assert_eq!(fraction(large, large + 1).real(), 1.0);
}

#[test]
fn sums_products_and_quotients() {
    assert_eq!(fraction(1, 3).plus(2), fraction(7, 3));
    assert_eq!(fraction(1, 3).plus(-1), fraction(-2, 3));
    assert_eq!(fraction(-2, 3).times(6), whole(-4));
    assert_eq!(fraction(-2, 3).times(-1), fraction(2, 3));
    assert_eq!(fraction(2, 3).over(4), fraction(1, 6));
    assert_eq!(fraction(-2, 3).abs(), fraction(2, 3));
    assert_eq!(fraction(6, 3).as_whole(), Some(2));
    assert_eq!(fraction(-6, 3).as_whole(), Some(-2));
    assert_eq!(fraction(7, 3).as_whole(), None);
}

#[test]
fn rounded_or_as_it_is() {
    let mut random = Random::seeded(21);
    for _ in 0..2_000 {
        let (number, by) = (random.between(-1_000, 1_000), random.between(1, 30));
        let (number, by) = (i128::from(number), i128::from(by));
        let exact = fraction(number, by);
        assert_eq!(exact.rounded(None), exact);
        for rounding in [Rounding::Down, Rounding::Up, Rounding::Nearest] {
            let rounded = exact.rounded(Some(rounding));
            assert_eq!(rounded.as_whole(), Some(rounding.quotient(number, by)));
        }
        assert!(exact.rounded(Some(Rounding::Down)) <= exact);
        assert!(exact.rounded(Some(Rounding::Up)) >= exact);
    }
}

#[test]
fn bounds_of_a_fraction() {
    let passes = |numerator: i128| {
        let bounds = [at_least(5), above(5), at_most(5), below(5)];
        bounds.map(|bound| fraction(numerator, 10).passes(&bound))
    };
    assert_eq!(passes(49), [false, false, true, true]);
    assert_eq!(passes(50), [true, false, true, false]);
    assert_eq!(passes(51), [true, true, false, false]);
}

#[test]
fn what_is_left_in_64_bits() {
    let (small, large) = (whole(1), whole(1 << 64));
    assert!(small < large);
    assert!(small.cmp_in_64_bits(large).is_gt());
    assert!(fraction(1, 3).cmp_in_64_bits(fraction(2, 3)).is_lt());
}

#[test]
#[should_panic(expected = "a denominator above zero")]
fn a_denominator_of_zero_is_none() {
    fraction(1, 0);
}
