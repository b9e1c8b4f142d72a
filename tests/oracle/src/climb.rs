//! "Climb".

use crate::numbers::CHECK;
use crate::rules::{Rules, Slip};
use crate::second::TripLanes;

/// "with d the change of recorded altitude from the second before and s this second's speed, if
/// 648d² > 25s² the corrected altitude is the previous corrected one, else the recorded one"
pub fn is_held(rules: &Rules, d: i128, s: i128) -> bool {
    let climb = &rules.climb;
    let (change, speed) = (climb.change * d * d, climb.speed * s * s);
    climb.held.passes(change.cmp(&speed))
}

/// "The first second with an altitude, and the first after a missing one, stand as recorded."
/// Otherwise the rule of [`is_held`]. A missing second has none.
pub fn corrected_altitudes(rules: &Rules, trip: TripLanes) -> Vec<Option<i128>> {
    let mut corrected: Vec<Option<i128>> = Vec::new();
    for index in 0..trip.seconds() {
        let altitude = corrected_altitude(rules, trip, &corrected, index);
        corrected.push(altitude);
    }
    corrected
}

/// The corrected altitude of one second, from those before it.
fn corrected_altitude(
    rules: &Rules,
    trip: TripLanes,
    before: &[Option<i128>],
    index: usize,
) -> Option<i128> {
    let second = trip.second(index);
    if !has_altitude(rules, trip, index) {
        return None;
    }
    let recorded = i128::from(second.altitude);
    let Some(previous) = second_before(rules, trip, index) else {
        let held = rules.slips(Slip::FirstAltitudeComparedWithZero)
            && is_held(rules, recorded, second.speed.into());
        return Some(if held { 0 } else { recorded });
    };
    let from = if rules.slips(Slip::ChangeFromTheCorrectedAltitude) {
        before[previous].expect("a corrected altitude")
    } else {
        i128::from(trip.second(previous).altitude)
    };
    let speed = if rules.slips(Slip::SpeedOfTheSecondBefore) {
        trip.second(previous).speed
    } else {
        second.speed
    };
    if is_held(rules, recorded - from, i128::from(speed)) {
        before[previous]
    } else {
        Some(recorded)
    }
}

/// "In states 1 and 3 every value is present."
fn has_altitude(rules: &Rules, trip: TripLanes, index: usize) -> bool {
    let second = trip.second(index);
    let is_check = second.state == CHECK && rules.slips(Slip::CheckSecondsHaveNoAltitude);
    second.recorded(rules) && !is_check
}

/// The second before, unless this one is the first with an altitude or "the first after a missing
/// one".
fn second_before(rules: &Rules, trip: TripLanes, index: usize) -> Option<usize> {
    if rules.slips(Slip::GapPassedOverInTheCorrection) {
        return (0..index).rfind(|&i| has_altitude(rules, trip, i));
    }
    let previous = index.checked_sub(1)?;
    has_altitude(rules, trip, previous).then_some(previous)
}

/// "Climb is the sum of upward steps between successive corrected altitudes, missing seconds passed
/// over."
pub fn climb(rules: &Rules, corrected: &[Option<i128>]) -> i128 {
    let over_gaps: Vec<Option<i128>> = if rules.slips(Slip::NoStepOverAGap) {
        corrected.to_vec()
    } else {
        corrected.iter().copied().filter(Option::is_some).collect()
    };
    let mut climb = 0;
    for step in over_gaps.windows(2) {
        if let [Some(from), Some(to)] = step {
            climb += counted_step(rules, to - from);
        }
    }
    climb
}

/// What a step adds to the climb.
fn counted_step(rules: &Rules, step: i128) -> i128 {
    match rules.slip {
        Some(Slip::StepsDownCounted) => (-step).max(0),
        Some(Slip::StepsBothWaysCounted) => step.abs(),
        _ => step.max(0),
    }
}
