//! Exact fractions, compared by cross-multiplying.
//!
//! What a window is judged by stays far below 2^127, also with sums that no trip has (S and m below
//! 2^32, n up to 32,768): the largest product, of c's numerator (below 2^57), a percentage (below 2^8)
//! and S, is below 2^97.

use std::cmp::Ordering;

use crate::bound::{Bound, Rounding};

/// A fraction, not always in its lowest terms; its denominator is above zero.
#[derive(Clone, Copy, Debug)]
pub struct Fraction {
    numerator: i128,
    denominator: i128,
}

/// The quotient by a number above zero, as it is.
pub fn fraction(numerator: i128, denominator: i128) -> Fraction {
    assert!(denominator > 0, "a denominator above zero");
    Fraction {
        numerator,
        denominator,
    }
}

/// A whole number.
pub fn whole(number: i128) -> Fraction {
    fraction(number, 1)
}

impl Fraction {
    /// The sum with a whole number.
    pub fn plus(self, number: i128) -> Fraction {
        let numerator = self.numerator + number * self.denominator;
        fraction(numerator, self.denominator)
    }

    /// The product with a whole number.
    pub fn times(self, number: i128) -> Fraction {
        fraction(self.numerator * number, self.denominator)
    }

    /// The quotient by a whole number above zero.
    pub fn over(self, number: i128) -> Fraction {
        fraction(self.numerator, self.denominator * number)
    }

    /// The number without its sign.
    pub fn abs(self) -> Fraction {
        fraction(self.numerator.abs(), self.denominator)
    }

    /// The number rounded to a whole one; as it is where nothing is rounded.
    pub fn rounded(self, rounding: Option<Rounding>) -> Fraction {
        match rounding {
            Some(rounding) => whole(rounding.quotient(self.numerator, self.denominator)),
            None => self,
        }
    }

    /// The number where it is whole.
    pub fn as_whole(self) -> Option<i128> {
        let is_whole = self.numerator % self.denominator == 0;
        is_whole.then(|| self.numerator / self.denominator)
    }

    /// Whether it passes a bound: "by cross-multiplying".
    pub fn passes(self, bound: &Bound<i128>) -> bool {
        bound.holds_times(self.numerator, self.denominator)
    }

    /// The f64 that the quotient is rounded to.
    pub fn real(self) -> f64 {
        self.numerator as f64 / self.denominator as f64
    }

    /// The products of the comparison with another.
    fn products(self, other: Fraction) -> [i128; 2] {
        [
            self.numerator * other.denominator,
            other.numerator * self.denominator,
        ]
    }

    /// Compares what is left of the products in 64 bits.
    pub fn cmp_in_64_bits(self, other: Fraction) -> Ordering {
        let [own, others] = self.products(other).map(|product| product as i64);
        own.cmp(&others)
    }
}

impl Ord for Fraction {
    /// "by cross-multiplying"
    fn cmp(&self, other: &Fraction) -> Ordering {
        let [own, others] = self.products(*other);
        own.cmp(&others)
    }
}

impl PartialOrd for Fraction {
    fn partial_cmp(&self, other: &Fraction) -> Option<Ordering> {
        Some(self.cmp(other))
    }
}

impl PartialEq for Fraction {
    fn eq(&self, other: &Fraction) -> bool {
        self.cmp(other) == Ordering::Equal
    }
}

impl Eq for Fraction {}
