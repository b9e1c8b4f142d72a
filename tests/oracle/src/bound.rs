//! A number that a figure is compared with, and which side of it passes.

use std::cmp::Ordering;

/// The side of a number that passes, with the number itself or without it.
#[derive(Clone, Copy, Debug, PartialEq, Eq)]
pub enum Side {
    AtLeast,
    Above,
    AtMost,
    Below,
}

impl Side {
    /// Whether a figure passes that stands so to the number.
    pub fn passes(self, figure_to_number: Ordering) -> bool {
        match self {
            Side::AtLeast => figure_to_number != Ordering::Less,
            Side::Above => figure_to_number == Ordering::Greater,
            Side::AtMost => figure_to_number != Ordering::Greater,
            Side::Below => figure_to_number == Ordering::Less,
        }
    }

    /// The same side with the number itself where it was without it, and the other way.
    pub fn other_end(self) -> Side {
        match self {
            Side::AtLeast => Side::Above,
            Side::Above => Side::AtLeast,
            Side::AtMost => Side::Below,
            Side::Below => Side::AtMost,
        }
    }
}

/// One end of what passes.
#[derive(Clone, Copy, Debug, PartialEq)]
pub struct Bound<T> {
    pub side: Side,
    pub number: T,
}

pub const fn at_least<T: Copy>(number: T) -> Bound<T> {
    let side = Side::AtLeast;
    Bound { side, number }
}

pub const fn above<T: Copy>(number: T) -> Bound<T> {
    let side = Side::Above;
    Bound { side, number }
}

pub const fn at_most<T: Copy>(number: T) -> Bound<T> {
    let side = Side::AtMost;
    Bound { side, number }
}

pub const fn below<T: Copy>(number: T) -> Bound<T> {
    let side = Side::Below;
    Bound { side, number }
}

impl<T: PartialOrd> Bound<T> {
    /// Whether a figure passes; one that cannot be compared does not.
    pub fn holds(&self, figure: impl Into<T>) -> bool {
        let order = figure.into().partial_cmp(&self.number);
        order.is_some_and(|order| self.side.passes(order))
    }
}

impl Bound<i128> {
    /// Whether `part` passes, compared with the number times `whole`: "by cross-multiplying".
    pub fn holds_times(&self, part: i128, whole: i128) -> bool {
        self.side.passes(part.cmp(&(self.number * whole)))
    }
}

/// "Ranges include their ends" where nothing else is said.
#[derive(Clone, Copy, Debug, PartialEq)]
pub struct Range<T> {
    pub least: Bound<T>,
    pub most: Bound<T>,
}

pub const fn range<T: Copy>(least: T, most: T) -> Range<T> {
    Range {
        least: at_least(least),
        most: at_most(most),
    }
}

impl<T: PartialOrd + Copy> Range<T> {
    pub fn holds(&self, figure: impl Into<T>) -> bool {
        let figure = figure.into();
        self.least.holds(figure) && self.most.holds(figure)
    }
}

impl Range<i128> {
    /// Whether `part` is from the least to the most times `whole`: "by cross-multiplying".
    pub fn holds_times(&self, part: i128, whole: i128) -> bool {
        self.least.holds_times(part, whole) && self.most.holds_times(part, whole)
    }
}

/// What becomes of a quotient that is no whole number.
#[derive(Clone, Copy, Debug, PartialEq, Eq)]
pub enum Rounding {
    /// "floor towards minus infinity"
    Down,
    Up,
    TowardsZero,
    Nearest,
}

impl Rounding {
    /// The quotient by a number above zero.
    pub fn quotient(self, number: i128, by: i128) -> i128 {
        match self {
            Rounding::Down => number.div_euclid(by),
            Rounding::Up => -(-number).div_euclid(by),
            Rounding::TowardsZero => number / by,
            Rounding::Nearest => (2 * number + by).div_euclid(2 * by),
        }
    }
}
