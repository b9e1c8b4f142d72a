//! Whole-trip evaluation: the tallies, the refusals, the answer and the lanes it writes.

use crate::climb::{climb, corrected_altitudes};
use crate::dynamics::{bin, d, products, q, ranked};
use crate::numbers::{
    at_0, refuse, Plan, Refusal, CHECK, LANES_DIFFER, LANE_TOO_SHORT, MISSING, NO_SECOND,
    OUT_OF_RANGE, PLAN_OUT_OF_RANGE, TOO_MANY, URBAN,
};
use crate::reasons::{reasons, BinFigures, ClassFigures, Figures, Tally};
use crate::rules::{Rules, Slip};
use crate::second::{Second, TripLanes};
use crate::windows::{
    kept, one_move, window_figures, windows, write_ends, SweepState, WindowFigures,
};

/// The lanes lent to the evaluation, "each needing a place per second".
#[derive(Debug)]
pub struct LentLanes<'a> {
    pub kept_speeds: &'a mut [u16],
    pub kept_co2: &'a mut [u32],
    pub ends: &'a mut [u16],
    pub ranks: &'a mut [u32],
}

/// "The trip answer also has the counts of the printed lines 1 and 2 and, for each of three bins,
/// seconds, distance, CO2 and NOx .., M, T and Q .., the trip's totals of the first four, the climb
/// in cm, and for each class windows and windows inside."
#[derive(Clone, Copy, Debug, PartialEq, Eq)]
pub struct TripAnswer {
    pub reasons: u16,
    pub seconds: i128,
    pub missing: i128,
    pub kept: i128,
    /// "windows, unclassed ones too"
    pub windows: i128,
    pub moves: i128,
    /// Urban, rural, motorway.
    pub bins: [BinFigures; 3],
    pub total: Tally,
    pub climb: i128,
    /// Urban, rural, motorway.
    pub classes: [ClassFigures; 3],
}

/// 6: whether a lent lane has too few places, "each needing a place per second".
fn a_lane_too_short(rules: &Rules, trip: TripLanes, lent: &LentLanes) -> bool {
    let places = [
        lent.kept_speeds.len(),
        lent.kept_co2.len(),
        lent.ends.len(),
        lent.ranks.len(),
    ];
    let needed = if rules.slips(Slip::RoomForKeptSecondsAlone) {
        kept(rules, trip).0.len()
    } else {
        trip.seconds()
    };
    let mut asked = rules.lanes.lent.iter();
    asked.any(|&lane| places[lane] < needed)
}

/// "Trip: 5, 1, 2, 6, 3, 4."
fn refuse_trip(
    rules: &Rules,
    plan: &Plan,
    trip: TripLanes,
    lent: &LentLanes,
) -> Result<(), Refusal> {
    refuse(&rules.orders.trip, |number| match number {
        PLAN_OUT_OF_RANGE => at_0(!plan.in_range(rules)),
        LANES_DIFFER => at_0(trip.differ(rules)),
        TOO_MANY => at_0(trip.too_many(rules.limits.trip)),
        LANE_TOO_SHORT => at_0(a_lane_too_short(rules, trip, lent)),
        OUT_OF_RANGE => trip.first_bad(rules),
        NO_SECOND => at_0(trip.none_recorded(rules)),
        _ => None,
    })
}

/// "A check second counts with its speed and altitude, not with its masses."
fn add_second(rules: &Rules, tally: &mut Tally, second: &Second) {
    tally.seconds += 1;
    tally.distance += i128::from(second.speed);
    if rules.states.with_masses.contains(&second.state) {
        tally.co2 += i128::from(second.co2);
        tally.nox += i128::from(second.nox);
        if rules.slips(Slip::Co2AndNoxExchangedInTheTallies) {
            std::mem::swap(&mut tally.co2, &mut tally.nox);
        }
    }
}

/// Whether a second counts in the tallies: "missing seconds have none".
fn is_tallied(rules: &Rules, second: &Second) -> bool {
    let is_check = second.state == CHECK && rules.slips(Slip::CheckSecondsNotTallied);
    second.recorded(rules) && !is_check
}

/// The figures of one bin.
fn bin_figures(rules: &Rules, trip: TripLanes, products: &[u32], which: usize) -> BinFigures {
    let mut figures = BinFigures::default();
    for second in trip.all() {
        if is_tallied(rules, &second) && bin(rules, second.speed) == which {
            add_second(rules, &mut figures.tally, &second);
        }
    }
    figures.m = products.len() as i128;
    figures.t = products.iter().map(|&p| i128::from(p)).sum();
    // "Q (zero where M is below 100)"
    if rules.dynamics.q_given.holds(figures.m) {
        figures.q = q(rules, &ranked(rules, products));
    } else if rules.slips(Slip::TZeroWithQ) {
        figures.t = 0;
    }
    figures
}

/// The trip's totals: of all seconds that are not missing.
fn total(rules: &Rules, trip: TripLanes) -> Tally {
    let mut total = Tally::default();
    for second in trip.all() {
        if is_tallied(rules, &second) {
            add_second(rules, &mut total, &second);
        }
    }
    total
}

/// The longest run of missing seconds.
fn missing_in_a_row(rules: &Rules, trip: TripLanes) -> i128 {
    let mut runs = vec![0];
    for second in trip.all() {
        if second.is_missing(rules) {
            *runs.last_mut().expect("a run") += 1;
        } else {
            runs.push(0);
        }
    }
    match rules.slip {
        Some(Slip::RunAtTheStartPassedOver) => runs[0] = 0,
        Some(Slip::RunAtTheEndPassedOver) => *runs.last_mut().expect("a run") = 0,
        _ => {}
    }
    runs.into_iter().max().expect("a run")
}

/// The number of seconds, not missing, of which `rule` holds.
fn count(rules: &Rules, trip: TripLanes, rule: impl Fn(&Second) -> bool) -> i128 {
    let counts = |second: &Second| match (rules.slip, second.state) {
        (Some(Slip::CheckSecondsNotCountedBySpeed), CHECK) => false,
        (Some(Slip::MissingSecondsCountedBySpeed), MISSING) => true,
        _ => second.recorded(rules),
    };
    trip.all().filter(|s| counts(s) && rule(s)).count() as i128
}

/// The kept seconds of a trip and its windows, each with its first and last kept second.
struct Found {
    kept_speeds: Vec<u16>,
    kept_co2: Vec<u32>,
    windows: Vec<(usize, usize)>,
}

fn find(rules: &Rules, plan: &Plan, trip: TripLanes) -> Found {
    let (kept_speeds, kept_co2) = kept(rules, trip);
    let windows = windows(rules, &kept_co2, plan.reference);
    Found {
        kept_speeds,
        kept_co2,
        windows,
    }
}

/// The figures of every window, in order.
fn judge_windows(rules: &Rules, plan: &Plan, found: &Found) -> Vec<WindowFigures> {
    let mut judged = Vec::new();
    for &(first, last) in &found.windows {
        let speeds = &found.kept_speeds[first..=last];
        let co2 = &found.kept_co2[first..=last];
        judged.push(window_figures(rules, plan, speeds, co2));
    }
    judged
}

/// The figures of every window of a trip, in order.
pub fn trip_windows(rules: &Rules, plan: &Plan, trip: TripLanes) -> Vec<WindowFigures> {
    judge_windows(rules, plan, &find(rules, plan, trip))
}

/// "for each class windows and windows inside"
fn class_figures(judged: &[WindowFigures], which: usize) -> ClassFigures {
    let of_class = judged.iter().filter(|window| window.class == Some(which));
    ClassFigures {
        windows: of_class.clone().count() as i128,
        inside: of_class.filter(|window| window.inside).count() as i128,
    }
}

/// "first and last recorded altitude", of the seconds that are not missing.
fn end_altitudes(rules: &Rules, trip: TripLanes, corrected: &[Option<i128>]) -> (i128, i128) {
    let all = rules.slips(Slip::AltitudesOfTheVeryEnds);
    let mut altitudes: Vec<i128> = trip
        .all()
        .filter(|second| all || second.recorded(rules))
        .map(|second| i128::from(second.altitude))
        .collect();
    if rules.slips(Slip::CorrectedAltitudesInReason8) {
        altitudes = corrected.iter().copied().flatten().collect();
    }
    let ends = (altitudes.first().copied(), altitudes.last().copied());
    (ends.0.expect("a second"), ends.1.expect("a second"))
}

/// "a corrected altitude", the highest.
fn highest(rules: &Rules, trip: TripLanes, corrected: &[Option<i128>]) -> i128 {
    let recorded = trip.all().filter(|second| second.recorded(rules));
    let highest = if rules.slips(Slip::RecordedAltitudeInReason9) {
        recorded.map(|second| i128::from(second.altitude)).max()
    } else {
        corrected.iter().copied().flatten().max()
    };
    // Only a wrong reading leaves a trip without an altitude.
    highest.unwrap_or_default()
}

/// The altitudes whose upward steps are climbed: "corrected altitudes".
fn climbed(rules: &Rules, trip: TripLanes, corrected: Vec<Option<i128>>) -> Vec<Option<i128>> {
    if !rules.slips(Slip::ClimbOfRecordedAltitudes) {
        return corrected;
    }
    let recorded = |second: Second| {
        let altitude = i128::from(second.altitude);
        second.recorded(rules).then_some(altitude)
    };
    trip.all().map(recorded).collect()
}

/// Every figure that a reason looks at, of a plan and a trip that are not refused.
pub fn figures(rules: &Rules, plan: &Plan, trip: TripLanes) -> Figures {
    figures_by_windows(rules, trip, &trip_windows(rules, plan, trip))
}

/// The same, the windows judged already.
pub fn figures_by_windows(rules: &Rules, trip: TripLanes, judged: &[WindowFigures]) -> Figures {
    let reason = &rules.reasons;
    let corrected = corrected_altitudes(rules, trip);
    let products = products(rules, trip);
    let missing = trip.all().filter(|s| s.is_missing(rules)).count() as i128;
    let left_out = if rules.slips(Slip::SecondsWithoutTheMissing) {
        missing
    } else {
        0
    };
    let (first_altitude, last_altitude) = end_altitudes(rules, trip, &corrected);
    let is_urban = |s: &Second| bin(rules, s.speed) == URBAN;
    Figures {
        seconds: trip.seconds() as i128 - left_out,
        missing,
        missing_in_a_row: missing_in_a_row(rules, trip),
        bins: [0, 1, 2].map(|which| bin_figures(rules, trip, &products[which], which)),
        total: total(rules, trip),
        urban_below_100: count(rules, trip, |s| is_urban(s) && reason.stands.holds(s.speed)),
        above_10_000: count(rules, trip, |s| reason.fast.holds(s.speed)),
        above_14_500: count(rules, trip, |s| reason.very_fast.holds(s.speed)),
        above_16_000: count(rules, trip, |s| reason.too_fast.holds(s.speed)),
        first_altitude,
        last_altitude,
        highest_corrected: highest(rules, trip, &corrected),
        climb: climb(rules, &climbed(rules, trip, corrected)),
        classes: [0, 1, 2].map(|which| class_figures(judged, which)),
    }
}

/// "with the sweep run to its end": the moves until it is over.
fn moves_to_the_end(rules: &Rules, kept_co2: &[u32], reference: u32) -> i128 {
    let mut state = SweepState::default();
    while let Some(made) = one_move(rules, kept_co2, reference, state) {
        state = made.after;
    }
    i128::from(state.moves)
}

/// Writes values into the front of a lane, as far as it has places.
fn write_front<T: Copy>(lane: &mut [T], values: &[T]) {
    for (place, value) in lane.iter_mut().zip(values) {
        *place = *value;
    }
}

/// "Whole-trip evaluation writes the kept and end lanes too": kept speeds and CO2 in the places of
/// the kept seconds, an end in the place of each window's first second; the ranking lane "holds
/// urban, then rural, then motorway products, each ascending, the rest unchanged".
fn write_lanes(rules: &Rules, trip: TripLanes, found: &Found, lent: &mut LentLanes) {
    if rules.slips(Slip::RestOfTheLanesCleared) {
        lent.kept_speeds.fill(0);
        lent.kept_co2.fill(0);
        lent.ranks.fill(0);
    }
    write_front(lent.kept_speeds, &found.kept_speeds);
    write_front(lent.kept_co2, &found.kept_co2);
    write_ends(rules, &found.windows, lent.ends);
    let products = products(rules, trip);
    let ranks = rules.dynamics.ranked_bins.map(|bin| {
        let few = !rules.dynamics.q_given.holds(products[bin].len() as i128);
        if few && rules.slips(Slip::FewProductsNotRanked) {
            return Vec::new();
        }
        ranked(rules, &products[bin])
    });
    write_front(lent.ranks, &ranks.concat());
}

/// The bits of reasons 12 and 13.
const DYNAMICS: u16 = 0x3000;

/// The verdict; S and N of too lively and too dull are "the bin's sums of speeds and seconds".
fn verdict(rules: &Rules, trip: TripLanes, figures: &Figures) -> u16 {
    let verdict = reasons(rules, figures);
    if !rules.slips(Slip::SumsOfSecondsWithD) {
        return verdict;
    }
    let mut with_d = *figures;
    for (which, bin) in with_d.bins.iter_mut().enumerate() {
        bin.tally = tally_of_seconds_with_d(rules, trip, which);
    }
    verdict & !DYNAMICS | reasons(rules, &with_d) & DYNAMICS
}

/// What a wrong reading takes for the sums of a bin.
fn tally_of_seconds_with_d(rules: &Rules, trip: TripLanes, which: usize) -> Tally {
    let mut tally = Tally::default();
    for (index, second) in trip.all().enumerate() {
        if d(rules, trip, index).is_some() && bin(rules, second.speed) == which {
            add_second(rules, &mut tally, &second);
        }
    }
    tally
}

/// Whole-trip evaluation.
pub fn evaluate(
    rules: &Rules,
    plan: &Plan,
    trip: TripLanes,
    lent: &mut LentLanes,
) -> Result<TripAnswer, Refusal> {
    refuse_trip(rules, plan, trip, lent)?;
    let found = find(rules, plan, trip);
    let figures = figures_by_windows(rules, trip, &judge_windows(rules, plan, &found));
    write_lanes(rules, trip, &found, lent);
    let windows = if rules.slips(Slip::UnclassedWindowsNotCounted) {
        figures.classes.iter().map(|class| class.windows).sum()
    } else {
        found.windows.len() as i128
    };
    Ok(TripAnswer {
        reasons: verdict(rules, trip, &figures),
        seconds: figures.seconds,
        missing: figures.missing,
        kept: found.kept_co2.len() as i128,
        windows,
        moves: moves_to_the_end(rules, &found.kept_co2, plan.reference),
        bins: rules.printed.answer_bins.map(|bin| figures.bins[bin]),
        total: figures.total,
        climb: figures.climb,
        classes: rules
            .printed
            .answer_classes
            .map(|class| figures.classes[class]),
    })
}
