//! Full-length trips on either side of each border of the rules.
//!
//! Each pair is built by arithmetic of its own from a drive that breaks no rule; no rule of the
//! independent program is asked. The two trips of a pair are one step apart.

mod altitude;
mod band;
mod base;
mod classes;
mod distance;
mod drive;
mod dull;
mod fast;
mod few_products;
mod few_windows;
mod length;
mod lively;
mod measure;
mod single_seconds;
mod stops;

use oracle::second::Second;
use oracle::Plan;

/// A plan and the seconds driven.
#[derive(Clone, Debug)]
pub struct Trip {
    pub plan: Plan,
    pub seconds: Vec<Second>,
}

/// Two trips, one step apart, on either side of one border.
pub struct Pair {
    /// Which border, as `reason 3: urban share, least 29 percent` or `D: 72 and 73, rural`. Unique.
    pub name: String,
    /// The bit that the two differ in, and in which alone; none where no reason hangs on the border.
    pub reason: Option<u32>,
    /// Reasons that hold on both sides, because the rules allow no otherwise valid trip.
    pub besides: u16,
    /// How many windows fewer are inside on the other side, where the border is that of the band.
    pub fewer_inside: Option<u32>,
    /// On the border: the reason does not hold.
    pub within: Trip,
    /// One step beyond: it holds.
    pub beyond: Trip,
}

impl Pair {
    /// A pair that differs in one reason and is valid otherwise.
    fn of_reason(reason: u32, what: &str, within: Trip, beyond: Trip) -> Pair {
        Pair {
            name: format!("reason {reason}: {what}"),
            reason: Some(reason),
            besides: 0,
            fewer_inside: None,
            within,
            beyond,
        }
    }

    /// A pair of valid trips that differ in another figure than the verdict.
    fn of_figure(name: &str, within: Trip, beyond: Trip) -> Pair {
        Pair {
            name: name.to_string(),
            reason: None,
            besides: 0,
            fewer_inside: None,
            within,
            beyond,
        }
    }

    /// The same pair, on the border of the band: one window fewer is inside beyond it.
    fn of_the_band(self) -> Pair {
        Pair {
            fewer_inside: Some(1),
            ..self
        }
    }
}

/// Every pair, in the order of the reasons; last those on which no reason hangs.
pub fn pairs() -> Vec<Pair> {
    let mut pairs = Vec::new();
    pairs.extend(length::pairs());
    pairs.extend(distance::pairs());
    pairs.extend(stops::pairs());
    pairs.extend(fast::pairs());
    pairs.extend(altitude::pairs());
    pairs.extend(few_products::pairs());
    pairs.extend(lively::pairs());
    pairs.extend(dull::pairs());
    pairs.extend(classes::pairs());
    pairs.extend(band::pairs());
    pairs.extend(single_seconds::pairs());
    pairs
}
