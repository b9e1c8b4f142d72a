//! "Kept seconds and windows".

use std::cmp::Ordering;

use crate::bound::{Bound, Rounding};
use crate::fraction::{fraction, whole, Fraction};
use crate::numbers::{
    at_0, refuse, Plan, Refusal, LANE_TOO_SHORT, MOTORWAY, OUT_OF_RANGE, PLAN_OUT_OF_RANGE,
    STATE_NEVER_REACHED, TOO_MANY,
};
use crate::rules::{End, Line, Rules, Slip};
use crate::second::{Second, TripLanes};

/// "Kept: state 1 and speed at least 100."
pub fn is_kept(rules: &Rules, second: &Second) -> bool {
    rules.states.kept.contains(&second.state) && rules.windows.kept_speed.holds(second.speed)
}

/// "Kept speeds and CO2 masses stand in order in lanes of their own."
pub fn kept(rules: &Rules, trip: TripLanes) -> (Vec<u16>, Vec<u32>) {
    let mut speeds = Vec::new();
    let mut co2 = Vec::new();
    for second in trip.all() {
        if is_kept(rules, &second) {
            speeds.push(second.speed);
            co2.push(second.co2);
        }
    }
    if rules.slips(Slip::KeptInReverse) {
        speeds.reverse();
        co2.reverse();
    }
    (speeds, co2)
}

/// "The window from kept second f ends at the first l, from f on, where the CO2 sum f to l reaches
/// the reference." Both from 0; none where the sum never does.
pub fn window_last(rules: &Rules, kept_co2: &[u32], first: usize, reference: u32) -> Option<usize> {
    let reached = Bound {
        side: rules.windows.window_reaches,
        number: u64::from(reference),
    };
    let mut sum = 0u64;
    let mut found = None;
    for (last, &co2) in kept_co2.iter().enumerate().skip(first) {
        sum += u64::from(co2);
        if reached.holds(sum) {
            found = Some(last);
            if !rules.slips(Slip::LastSecondThatReaches) {
                break;
            }
        }
    }
    found
}

/// The windows of the kept seconds, each with its first and last second from 0.
pub fn windows(rules: &Rules, kept_co2: &[u32], reference: u32) -> Vec<(usize, usize)> {
    let mut found = Vec::new();
    let mut first = 0;
    while first < kept_co2.len() {
        let mut next = first + 1;
        if let Some(last) = window_last(rules, kept_co2, first, reference) {
            found.push((first, last));
            if rules.slips(Slip::NextWindowFromTheOldEnd) {
                next = last + 1;
            }
        }
        first = next;
    }
    found
}

/// A window's end as it is written: "first kept second numbered 1".
pub fn end_number(rules: &Rules, last: usize) -> u16 {
    u16::try_from(last + rules.windows.first_number).expect("at most 8,192 kept seconds")
}

/// "write its end in the place of its first second"
fn write_end(rules: &Rules, ends: &mut [u16], first: usize, last: usize) {
    let in_last = rules.slips(Slip::EndInThePlaceOfTheLastSecond);
    let place = if in_last { last } else { first };
    if let Some(place) = ends.get_mut(place) {
        *place = end_number(rules, last);
    }
}

/// The ends of these windows into the lane.
pub fn write_ends(rules: &Rules, windows: &[(usize, usize)], ends: &mut [u16]) {
    if rules.slips(Slip::RestOfTheLanesCleared) {
        ends.fill(0);
    }
    for &(first, last) in windows {
        write_end(rules, ends, first, last);
    }
}

/// "The sweep begins with nothing taken, nothing dropped, mass 0, no moves."
#[derive(Clone, Copy, Debug, Default, PartialEq, Eq)]
pub struct SweepState {
    pub taken: u64,
    pub dropped: u64,
    pub mass: u64,
    pub moves: u64,
}

/// A run "answers the state and the moves made".
#[derive(Clone, Copy, Debug, PartialEq, Eq)]
pub struct SweepAnswer {
    pub state: SweepState,
    pub moves: u64,
}

/// One move: the state after it and, where it closed a window, the window's first and last second.
#[derive(Clone, Copy, Debug, PartialEq, Eq)]
pub struct Move {
    pub after: SweepState,
    pub closed: Option<(usize, usize)>,
}

/// "One move: if the mass reaches the reference, close the window, write its end in the place of its
/// first second .., and drop that second; otherwise take the next kept second; with none left the
/// sweep is over." For a state that is reached; none where the sweep is over.
pub fn one_move(
    rules: &Rules,
    kept_co2: &[u32],
    reference: u32,
    before: SweepState,
) -> Option<Move> {
    let reached = Bound {
        side: rules.windows.move_reaches,
        number: u64::from(reference),
    };
    let (first, next) = (before.dropped as usize, before.taken as usize);
    let mut after = before;
    after.moves = before.moves.saturating_add(1);
    if reached.holds(before.mass) && first < next {
        let drops_all = rules.slips(Slip::ClosingDropsAllThatWasTaken);
        let end = if drops_all { next } else { first + 1 };
        after.dropped = end as u64;
        for dropped in first..end {
            let mass = kept_co2.get(dropped).copied().unwrap_or(0);
            after.mass = after.mass.saturating_sub(u64::from(mass));
        }
        after.moves -= u64::from(rules.slips(Slip::ClosingIsNoMove));
        let closed = Some((first, next - 1));
        Some(Move { after, closed })
    } else if next < kept_co2.len() {
        after.taken += 1;
        after.mass = before.mass.saturating_add(kept_co2[next].into());
        let closed = None;
        Some(Move { after, closed })
    } else {
        None
    }
}

/// Whether two states are the same in what is looked at.
fn same_state(rules: &Rules, a: SweepState, b: SweepState) -> bool {
    let looked_at = |slip: Slip| !rules.slips(slip);
    (a.taken == b.taken || !looked_at(Slip::StateByAllButTaken))
        && (a.dropped == b.dropped || !looked_at(Slip::StateByAllButDropped))
        && (a.mass == b.mass || !looked_at(Slip::StateByAllButMass))
        && (a.moves == b.moves || !looked_at(Slip::StateByAllButMoves))
}

/// 13: whether the sweep, replayed from its beginning, ever stands in this state.
pub fn is_reached(rules: &Rules, kept_co2: &[u32], reference: u32, asked: SweepState) -> bool {
    let mut state = SweepState::default();
    if rules.slips(Slip::BeginsWithASecondTaken) {
        state.taken = 1;
        state.mass = kept_co2.first().copied().map_or(0, u64::from);
    }
    loop {
        let next = one_move(rules, kept_co2, reference, state);
        let left_out = next.is_none() && rules.slips(Slip::FinishedStateRefused);
        if same_state(rules, state, asked) && !left_out {
            return true;
        }
        match next {
            Some(made) => state = made.after,
            None => return false,
        }
    }
}

/// "Sweep: 5 (its reference), 2, 6, 3, 13."
fn refuse_sweep(
    rules: &Rules,
    kept_co2: &[u32],
    ends: &[u16],
    reference: u32,
    state: SweepState,
) -> Result<(), Refusal> {
    let room = kept_co2.len() as i128 - rules.windows.places_spared;
    let bad = |mass: &u32| !rules.ranges.co2.holds(*mass);
    refuse(&rules.orders.sweep, |number| match number {
        PLAN_OUT_OF_RANGE => at_0(!rules.ranges.reference.holds(reference)),
        TOO_MANY if kept_co2.is_empty() => at_0(rules.slips(Slip::NoKeptSecondRefused)),
        TOO_MANY => at_0(!rules.limits.sweep.holds(kept_co2.len() as i128)),
        // "The sweep's own lane for ends needs one place per kept second".
        LANE_TOO_SHORT => at_0((ends.len() as i128) < room),
        OUT_OF_RANGE if rules.slips(Slip::LastBadValue) => kept_co2.iter().rposition(bad),
        OUT_OF_RANGE => kept_co2.iter().position(bad),
        STATE_NEVER_REACHED => at_0(!is_reached(rules, kept_co2, reference, state)),
        _ => None,
    })
}

/// How many moves a budget allows.
fn allowed(rules: &Rules, budget: u64) -> u64 {
    match rules.slip {
        Some(Slip::BudgetOneShort) => budget.saturating_sub(1),
        Some(Slip::BudgetOneOver) => budget.saturating_add(1),
        Some(Slip::NoBudgetIsNoLimit) if budget == 0 => u64::MAX,
        _ => budget,
    }
}

/// "A run takes a budget of moves, 0 allowed, makes exactly that many, or fewer only because the
/// sweep is over, and answers the state and the moves made. .. a call writes only the places of
/// windows it closes."
pub fn sweep(
    rules: &Rules,
    kept_co2: &[u32],
    ends: &mut [u16],
    reference: u32,
    state: SweepState,
    budget: u64,
) -> Result<SweepAnswer, Refusal> {
    refuse_sweep(rules, kept_co2, ends, reference, state)?;
    if rules.slips(Slip::RestOfTheLanesCleared) {
        ends.fill(0);
    }
    if rules.slips(Slip::AllWindowsWrittenAtOnce) {
        write_ends(rules, &windows(rules, kept_co2, reference), ends);
    }
    let mut state = state;
    let mut moves = 0;
    while moves < allowed(rules, budget) {
        let Some(made) = one_move(rules, kept_co2, reference, state) else {
            break;
        };
        state = made.after;
        moves += 1;
        if let Some((first, last)) = made.closed {
            write_end(rules, ends, first, last);
            if rules.slips(Slip::RunStopsAtAWindow) {
                break;
            }
        }
    }
    if rules.slips(Slip::MovesSinceTheBeginning) {
        moves = state.moves;
    }
    Ok(SweepAnswer { state, moves })
}

/// "With S the sum of its speeds and n its length, mean speed is v = floor(10S/n) in 0.001 km/h"; since
/// L2 "the exact mean".
pub fn mean_speed(rules: &Rules, s: i128, n: i128) -> Fraction {
    let windows = &rules.windows;
    fraction(windows.mean_times * s, n).rounded(windows.mean_rounding)
}

/// "Urban: v < 45,000. Rural: to below 80,000. Motorway: to below 145,000. Faster windows have no
/// class."
pub fn class(rules: &Rules, v: Fraction) -> Option<usize> {
    let v = match rules.slip {
        Some(Slip::ClassByTheMeanRounded(rounding)) => v.rounded(Some(rounding)),
        _ => v,
    };
    let classes = rules.windows.classes;
    let found = classes.iter().position(|class| v.passes(class));
    if found.is_none() && rules.slips(Slip::FasterWindowsAreMotorway) {
        return Some(MOTORWAY);
    }
    found
}

/// Which line the curve takes: the first "for v up to 56,664"; since L2 "the first up to 56,664
/// itself".
fn line_at(rules: &Rules, v: Fraction) -> &Line {
    let v = match rules.slip {
        Some(Slip::LineByTheMeanRounded(rounding)) => v.rounded(Some(rounding)),
        _ => v,
    };
    let [first, second] = &rules.windows.lines;
    if v.passes(&rules.windows.turn) {
        first
    } else {
        second
    }
}

/// "Curve c, floor towards minus infinity: for v up to 56,664, E1 + floor((E2-E1)(v-18,882)/37,782),
/// also below 18,882; beyond, E2 + floor((E3-E2)(v-56,664)/35,333)"; since L2 "the unrounded line at
/// the exact mean".
pub fn curve(rules: &Rules, plan: &Plan, v: Fraction) -> Fraction {
    let v = match rules.slip {
        Some(Slip::CurveByTheMeanRounded(rounding)) => v.rounded(Some(rounding)),
        _ => v,
    };
    let line = line_at(rules, v);
    let [e, f] = line.ends.map(|end| i128::from(plan.curve()[end]));
    let flat = v < whole(line.from) && rules.slips(Slip::CurveFlatBelowItsFirstPoint);
    let v = if flat { whole(line.from) } else { v };
    let rise = v.plus(-line.from).times(f - e).over(line.over);
    let c = rise.rounded(line.rounding).plus(e);
    if rules.slips(Slip::CurveWithoutSign) {
        return c.abs();
    }
    c
}

/// "Window figure w = floor(360,000 m / S), m its CO2 in mg"; since L2 "the exact quotient".
pub fn figure(rules: &Rules, m: i128, s: i128) -> Fraction {
    let windows = &rules.windows;
    fraction(windows.kilometre * m, s).rounded(windows.figure_rounding)
}

/// 100w compared with an end of the band, so many times c: "both comparisons are made by
/// cross-multiplying" (L2).
fn figure_to_end(rules: &Rules, end: End, w: Fraction, c: Fraction, times: i128) -> Ordering {
    let of_figure = rules.windows.band.of_figure;
    let (figure, border) = (w.times(of_figure), c.times(times));
    match rules.slip {
        Some(Slip::WholeFiguresInTheComparison(of)) if of == end => {
            let [w, c] = [w, c].map(|number| number.rounded(Some(Rounding::Down)));
            w.times(of_figure).cmp(&c.times(times))
        }
        Some(Slip::EndOfTheBandRounded(of, rounding)) if of == end => {
            w.cmp(&border.over(of_figure).rounded(Some(rounding)))
        }
        Some(Slip::ComparedAsReals) => {
            let figure = of_figure as f64 * w.real();
            figure.total_cmp(&(times as f64 * c.real()))
        }
        Some(Slip::ComparedIn64Bits) => figure.cmp_in_64_bits(border),
        _ => figure.cmp(&border),
    }
}

/// "Inside: 100w at least (100-lower)c and at most (100+upper)c."
pub fn is_inside(rules: &Rules, w: Fraction, c: Fraction, lower: u8, upper: u8) -> bool {
    let band = &rules.windows.band;
    if c == whole(0) && rules.slips(Slip::ZeroCurveNeverInside) {
        return false;
    }
    let of_lower = band.of_lower - i128::from(lower);
    let of_upper = band.of_upper + i128::from(upper);
    let to_least = figure_to_end(rules, End::Lower, w, c, of_lower);
    let to_most = figure_to_end(rules, End::Upper, w, c, of_upper);
    band.least.passes(to_least) && band.most.passes(to_most)
}

/// What one window is judged by; one without a class is not inside.
#[derive(Clone, Copy, Debug, PartialEq, Eq)]
pub struct WindowFigures {
    pub v: Fraction,
    pub class: Option<usize>,
    pub c: Fraction,
    pub w: Fraction,
    pub inside: bool,
}

/// The figures of a window with the sum s of its speeds, its CO2 m and its length n.
pub fn figures_of_sums(rules: &Rules, plan: &Plan, s: i128, m: i128, n: i128) -> WindowFigures {
    let v = mean_speed(rules, s, n);
    let class = class(rules, v);
    let c = curve(rules, plan, v);
    let w = figure(rules, m, s);
    let inside = class.is_some_and(|class| {
        let upper = plan.upper[rules.windows.tolerance_of[class]];
        let swapped = rules.slips(Slip::TolerancesExchanged);
        let (lower, upper) = if swapped {
            (upper, plan.lower)
        } else {
            (plan.lower, upper)
        };
        is_inside(rules, w, c, lower, upper)
    });
    WindowFigures {
        v,
        class,
        c,
        w,
        inside,
    }
}

/// "A window's seconds can be handed on as a part of the kept lanes starting at its first second."
pub fn window_figures(rules: &Rules, plan: &Plan, speeds: &[u16], co2: &[u32]) -> WindowFigures {
    let s: u64 = speeds.iter().map(|&speed| u64::from(speed)).sum();
    let m: u64 = co2.iter().map(|&mass| u64::from(mass)).sum();
    figures_of_sums(rules, plan, s.into(), m.into(), speeds.len() as i128)
}
