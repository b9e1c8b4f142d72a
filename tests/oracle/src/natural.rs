//! "Some products pass 64 bits": natural numbers of any size, by the sum and product taught at
//! school, in digits to the base 2^32.

use std::cmp::Ordering;

const BASE: u64 = 1 << 32;

/// Digits, lowest first, the highest not zero; zero has none.
#[derive(Clone, Debug, PartialEq, Eq)]
pub struct Natural {
    digits: Vec<u32>,
}

/// A number that is not negative.
pub fn natural(value: i128) -> Natural {
    let mut rest = u128::try_from(value).expect("a natural number");
    let mut digits = Vec::new();
    while rest > 0 {
        digits.push((rest % u128::from(BASE)) as u32);
        rest /= u128::from(BASE);
    }
    Natural { digits }
}

/// The sum of two numbers.
pub fn sum(a: &Natural, b: &Natural) -> Natural {
    let mut digits = Vec::new();
    let mut carry = 0;
    for place in 0..a.digits.len().max(b.digits.len()) {
        let total = a.digit(place) + b.digit(place) + carry;
        digits.push((total % BASE) as u32);
        carry = total / BASE;
    }
    digits.push(carry as u32);
    Natural::of(digits)
}

/// The product of all the factors.
pub fn product(factors: &[i128]) -> Natural {
    let mut result = natural(1);
    for &factor in factors {
        result = times(&result, &natural(factor));
    }
    result
}

/// The product of two numbers.
fn times(a: &Natural, b: &Natural) -> Natural {
    let mut result = natural(0);
    for place in 0..b.digits.len() {
        let mut row = vec![0; place];
        let mut carry = 0;
        for &digit in &a.digits {
            let total = u64::from(digit) * b.digit(place) + carry;
            row.push((total % BASE) as u32);
            carry = total / BASE;
        }
        row.push(carry as u32);
        result = sum(&result, &Natural::of(row));
    }
    result
}

/// The number halved so many times, what is below one cut off.
pub fn halved(a: &Natural, times: usize) -> Natural {
    let (whole, bits) = (times / 32, times % 32);
    let digits = (whole..a.digits.len()).map(|place| {
        let two = a.digit(place) + BASE * a.digit(place + 1);
        ((two >> bits) % BASE) as u32
    });
    Natural::of(digits.collect())
}

impl Natural {
    /// The number itself, where it is below 2^128.
    pub fn small(&self) -> Option<u128> {
        let digit = |place: usize| u128::from(self.digit(place)) << (32 * place);
        (self.digits.len() <= 4).then(|| (0..4).map(digit).sum())
    }

    /// What is left of the number in 64 bits.
    pub fn low_half(&self) -> u64 {
        self.digit(0) + BASE * self.digit(1)
    }

    /// The number with these digits.
    fn of(mut digits: Vec<u32>) -> Natural {
        while digits.last() == Some(&0) {
            digits.pop();
        }
        Natural { digits }
    }

    /// The digit at a place, zero beyond the highest.
    fn digit(&self, place: usize) -> u64 {
        self.digits.get(place).copied().map_or(0, u64::from)
    }
}

impl Ord for Natural {
    /// More digits are more; else the highest digit that differs decides.
    fn cmp(&self, other: &Natural) -> Ordering {
        let lengths = self.digits.len().cmp(&other.digits.len());
        lengths.then_with(|| self.digits.iter().rev().cmp(other.digits.iter().rev()))
    }
}

impl PartialOrd for Natural {
    fn partial_cmp(&self, other: &Natural) -> Option<Ordering> {
        Some(self.cmp(other))
    }
}
