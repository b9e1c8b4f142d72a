//! The paper's numbers for states, places and refusals, and the plan.

use crate::rules::{Order, Rules};

/// "1 measured"
pub const MEASURED: u8 = 1;
/// "2 missing"
pub const MISSING: u8 = 2;
/// "3 instrument check"
pub const CHECK: u8 = 3;

/// Places of the bins and of the classes, in the paper's order.
pub const URBAN: usize = 0;
pub const RURAL: usize = 1;
pub const MOTORWAY: usize = 2;

/// 0: accepted
pub const ACCEPTED: u8 = 0;
/// 1: lanes of one trip differ in length
pub const LANES_DIFFER: u8 = 1;
/// 2: more than 8,192 seconds or values
pub const TOO_MANY: u8 = 2;
/// 3: a state or value out of range
pub const OUT_OF_RANGE: u8 = 3;
/// 4: no second in state 1 or 3, or an asked index past the end
pub const NO_SECOND: u8 = 4;
/// 5: plan out of range
pub const PLAN_OUT_OF_RANGE: u8 = 5;
/// 6: a lane to be written is too short
pub const LANE_TOO_SHORT: u8 = 6;
/// 7: stream ends inside an item
pub const ENDS_INSIDE_ITEM: u8 = 7;
/// 8: unknown kind
pub const UNKNOWN_KIND: u8 = 8;
/// 9: a mass input not finite or out of range
pub const MASS_INPUT: u8 = 9;
/// 10: the whole-part mass above the second's range
pub const MASS_ABOVE_RANGE: u8 = 10;
/// 11: plan absent, late or repeated
pub const PLAN_ABSENT_LATE_OR_REPEATED: u8 = 11;
/// 12: percentile asked of fewer than 100 values
pub const TOO_FEW_VALUES: u8 = 12;
/// 13: sweep state that these kept seconds and this reference never reach
pub const STATE_NEVER_REACHED: u8 = 13;

/// "A refusal returns its number and a place."
#[derive(Clone, Copy, Debug, PartialEq, Eq)]
pub struct Refusal {
    pub number: u8,
    pub place: usize,
}

impl Refusal {
    /// "stream: byte offset of the item; elsewhere 3: index, from 0, of the first bad second or
    /// value"
    pub fn at(number: u8, place: usize) -> Refusal {
        Refusal { number, place }
    }

    /// "otherwise 0"
    pub fn new(number: u8) -> Refusal {
        Refusal { number, place: 0 }
    }
}

/// "Orders": the first number of an order whose condition holds, with its place.
pub fn refuse(order: &Order, place_of: impl Fn(u8) -> Option<usize>) -> Result<(), Refusal> {
    let held = |&number: &u8| place_of(number).map(|place| Refusal::at(number, place));
    let Some(first) = order.numbers.iter().find_map(held) else {
        return Ok(());
    };
    // A wrong reading has two of them the other way round.
    let exchanged = order.exchanged.filter(|pair| pair.0 == first.number);
    Err(exchanged.and_then(|pair| held(&pair.1)).unwrap_or(first))
}

/// The place 0 where a condition holds.
pub fn at_0(holds: bool) -> Option<usize> {
    holds.then_some(0)
}

/// "Plan: reference CO2 mass ..; curve values E1, E2, E3 ..; lower tolerance and upper tolerances
/// for urban, rural, motorway".
#[derive(Clone, Copy, Debug, Default, PartialEq, Eq)]
pub struct Plan {
    pub reference: u32,
    pub e1: u32,
    pub e2: u32,
    pub e3: u32,
    pub lower: u8,
    /// Urban, rural, motorway.
    pub upper: [u8; 3],
}

impl Plan {
    /// E1, E2, E3.
    pub fn curve(&self) -> [u32; 3] {
        [self.e1, self.e2, self.e3]
    }

    /// "reference .. 1 to 20,000,000; .. each 1 to 2,000,000; .. each 0 to 100"
    pub fn in_range(&self, rules: &Rules) -> bool {
        let ranges = &rules.ranges;
        let [urban, rural, motorway] = self.upper;
        let curve = ranges.curve.iter().zip(self.curve());
        let tolerances = [self.lower, urban, rural, motorway];
        let tolerances = ranges.tolerances.iter().zip(tolerances);
        ranges.reference.holds(self.reference)
            && curve.into_iter().all(|(range, e)| range.holds(e))
            && tolerances.into_iter().all(|(range, t)| range.holds(t))
    }
}
