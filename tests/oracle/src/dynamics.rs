//! "Dynamics".

use crate::bound::Side;
use crate::natural::{natural, product as product_of, sum, Natural};
use crate::numbers::{
    at_0, refuse, Refusal, CHECK, LANES_DIFFER, LANE_TOO_SHORT, MOTORWAY, NO_SECOND, OUT_OF_RANGE,
    TOO_FEW_VALUES, TOO_MANY,
};
use crate::rules::{Rules, Slip};
use crate::second::TripLanes;

/// "Bins by the second's speed: urban up to 6,000, rural up to 9,000, motorway above".
pub fn bin(rules: &Rules, speed: u16) -> usize {
    let bins = rules.dynamics.bins;
    bins.iter()
        .position(|bin| bin.holds(speed))
        .unwrap_or(MOTORWAY)
}

/// Whether a second is missing where D is asked for.
fn is_lacking(rules: &Rules, trip: TripLanes, index: usize) -> bool {
    let second = trip.second(index);
    let is_check = second.state == CHECK && rules.slips(Slip::CheckSecondsHaveNoD);
    is_check || !second.recorded(rules)
}

/// Whether a second beside another is missing; "before the first and after the last" none is.
fn lacks(rules: &Rules, trip: TripLanes, neighbour: Option<usize>, ignored: Slip) -> bool {
    let Some(index) = neighbour.filter(|&index| index < trip.seconds()) else {
        return rules.slips(Slip::NoDAtTheEndsOfTheTrip);
    };
    is_lacking(rules, trip, index) && !rules.slips(ignored)
}

/// "before the first and after the last second the speed is 0"
fn speed_at(rules: &Rules, trip: TripLanes, index: Option<usize>, own: i128) -> i128 {
    match index.filter(|&index| index < trip.seconds()) {
        Some(index) => i128::from(trip.second(index).speed),
        None if rules.slips(Slip::OwnSpeedOutsideTheTrip) => own,
        None => rules.dynamics.outside_speed,
    }
}

/// "D is the next speed minus the previous; before the first and after the last second the speed is
/// 0. A missing second has no D, nor has one beside it."
pub fn d(rules: &Rules, trip: TripLanes, index: usize) -> Option<i128> {
    let (before, after) = (index.checked_sub(1), Some(index + 1));
    let itself = is_lacking(rules, trip, index) && !rules.slips(Slip::MissingSecondHasD);
    if itself
        || lacks(rules, trip, before, Slip::MissingBeforeIgnored)
        || lacks(rules, trip, after, Slip::MissingAfterIgnored)
    {
        return None;
    }
    let own = i128::from(trip.second(index).speed);
    let previous = speed_at(rules, trip, before, own);
    let next = speed_at(rules, trip, after, own);
    Some(match rules.slip {
        Some(Slip::DBackwards) => previous - next,
        Some(Slip::DToTheNextAlone) => next - own,
        Some(Slip::DFromThePreviousAlone) => own - previous,
        _ => next - previous,
    })
}

/// "the D of one second of a trip's lanes by index from 0, or that it has none (1, 2, 3, 4)"
pub fn d_of_second(rules: &Rules, trip: TripLanes, index: usize) -> Result<Option<i128>, Refusal> {
    let past_the_end = !rules.dynamics.index.passes(index.cmp(&trip.seconds()));
    refuse(&rules.orders.d, |number| match number {
        LANES_DIFFER => at_0(trip.differ(rules)),
        TOO_MANY => at_0(trip.too_many(rules.limits.d)),
        OUT_OF_RANGE => trip.first_bad(rules),
        NO_SECOND if rules.slips(Slip::DOfATripWithoutRecordedSeconds) => at_0(past_the_end),
        NO_SECOND => at_0(trip.none_recorded(rules) || past_the_end),
        _ => None,
    })?;
    let from_1 = rules.slips(Slip::IndexFrom1);
    let asked = if from_1 {
        index.checked_sub(1)
    } else {
        Some(index)
    };
    Ok(asked
        .filter(|&index| index < trip.seconds())
        .and_then(|index| d(rules, trip, index)))
}

/// "Seconds with D > 72 (0.1 m/s²) count; their product is P = speed times D."
pub fn product(rules: &Rules, speed: u16, d: i128) -> Option<i128> {
    rules
        .dynamics
        .counts
        .holds(d)
        .then(|| i128::from(speed) * d)
}

/// The products of each bin, in the order of the seconds.
pub fn products(rules: &Rules, trip: TripLanes) -> [Vec<u32>; 3] {
    let mut products = [Vec::new(), Vec::new(), Vec::new()];
    for index in 0..trip.seconds() {
        let speed = trip.second(index).speed;
        let of_next = rules.slips(Slip::ProductOfTheNextSpeed) && index + 1 < trip.seconds();
        let factor = if of_next {
            trip.second(index + 1).speed
        } else {
            speed
        };
        if let Some(p) = d(rules, trip, index).and_then(|d| product(rules, factor, d)) {
            products[bin(rules, speed)].push(u32::try_from(p).expect("a product"));
        }
    }
    products
}

/// "Ranked ascending, x(1) to x(M)".
pub fn ranked(rules: &Rules, products: &[u32]) -> Vec<u32> {
    let mut ranked = products.to_vec();
    if !rules.slips(Slip::ProductsNotRanked) {
        ranked.sort();
    }
    if rules.slips(Slip::RankedDescending) {
        ranked.reverse();
    }
    ranked
}

/// "with j and r the quotient and remainder of 95M by 100, Q = 100x(j) + r(x(j+1) - x(j)), or
/// 100x(j) where r is 0", of ranked values.
pub fn q(rules: &Rules, ranked: &[u32]) -> i128 {
    let dynamics = &rules.dynamics;
    let from_0 = rules.slips(Slip::RanksFrom0);
    let x = |number: usize| {
        let place = (number + usize::from(from_0)).clamp(1, ranked.len());
        i128::from(ranked[place - 1])
    };
    let rank = dynamics.percent * ranked.len();
    let (j, r) = (rank / dynamics.percent_of, rank % dynamics.percent_of);
    let step = match rules.slip {
        Some(Slip::RemainderLeftOut) => 0,
        Some(Slip::StepBelowTheRank) => x(j) - x(j - 1),
        _ if r == 0 => 0,
        _ => x(j + 1) - x(j),
    };
    dynamics.q_times * x(j) + r as i128 * step
}

/// "Percentile: 2, 12, 6, 3; it takes products in any order, each 0 to 625,000,000, and ranks them
/// into a lent lane with a place for each." It answers Q.
pub fn percentile(rules: &Rules, products: &[u32], ranks: &mut [u32]) -> Result<i128, Refusal> {
    let count = products.len() as i128;
    let bad = |product: &u32| !rules.ranges.product.holds(*product);
    refuse(&rules.orders.percentile, |number| match number {
        TOO_MANY => at_0(!rules.limits.percentile.holds(count)),
        TOO_FEW_VALUES => at_0(!rules.dynamics.percentile_values.holds(count)),
        LANE_TOO_SHORT => at_0((ranks.len() as i128) < count - rules.dynamics.places_spared),
        OUT_OF_RANGE if rules.slips(Slip::LastBadValue) => products.iter().rposition(bad),
        OUT_OF_RANGE => products.iter().position(bad),
        _ => None,
    })?;
    let ranked = ranked(rules, products);
    if rules.slips(Slip::RestOfTheLanesCleared) {
        ranks.fill(0);
    }
    for (place, value) in ranks.iter_mut().zip(&ranked) {
        *place = *value;
    }
    Ok(q(rules, &ranked))
}

/// How two numbers compare; a wrong reading loses the carry of the low half.
fn passes(rules: &Rules, side: Side, left: &Natural, right: &Natural) -> bool {
    if rules.slips(Slip::CarryLost) {
        return side.passes(left.low_half().cmp(&right.low_half()));
    }
    side.passes(left.cmp(right))
}

/// "too lively: if S ≤ 7,460N, 5QN > 176,256S + 1,871,424,000N; else 25QN > 480,816S +
/// 12,289,968,000N", for natural numbers of any size.
pub fn too_lively(rules: &Rules, s: i128, n: i128, q: i128) -> bool {
    let lively = &rules.dynamics.lively;
    let slow = lively
        .turn
        .side
        .passes(natural(s).cmp(&product_of(&[lively.turn.number, n])));
    let line = if slow { &lively.slow } else { &lively.fast };
    let right = sum(&product_of(&[line.of_s, s]), &product_of(&[line.of_n, n]));
    passes(rules, lively.too, &product_of(&[line.of_qn, q, n]), &right)
}

/// "too dull: if S ≤ 9,405N, 3,125TN + 36S² < 394,875SN; else T < 18S", for natural numbers of any
/// size.
pub fn too_dull(rules: &Rules, s: i128, n: i128, t: i128) -> bool {
    let dull = &rules.dynamics.dull;
    if dull
        .turn
        .side
        .passes(natural(s).cmp(&product_of(&[dull.turn.number, n])))
    {
        let left = sum(
            &product_of(&[dull.of_tn, t, n]),
            &product_of(&[dull.of_ss, s, s]),
        );
        passes(rules, dull.too, &left, &product_of(&[dull.of_sn, s, n]))
    } else {
        passes(rules, dull.too, &natural(t), &product_of(&[dull.of_s, s]))
    }
}
