//! The evaluation of a trip in plain safe Rust, as a careful engineer would write it.

use library::{Bin, Class, Lent, Plan, Trip, TripAnswer};

#[inline(never)]
pub fn evaluate(plan: Plan, trip: Trip, lent: Lent) -> TripAnswer {
    let refused = |refusal, place| TripAnswer {
        refusal,
        place,
        ..TripAnswer::default()
    };
    let n = trip.states.len();
    if !plan_in_range(&plan) {
        return refused(5, 0);
    }
    if [
        trip.speeds.len(),
        trip.altitudes.len(),
        trip.co2.len(),
        trip.nox.len(),
    ] != [n; 4]
    {
        return refused(1, 0);
    }
    if n > 8_192 {
        return refused(2, 0);
    }
    let room = lent
        .kept_speeds
        .len()
        .min(lent.kept_co2.len())
        .min(lent.ends.len())
        .min(lent.ranks.len());
    if room < n {
        return refused(6, 0);
    }
    if let Some(bad) = (0..n).find(|&i| !second_in_range(&trip, i)) {
        return refused(3, bad);
    }
    if trip.states.iter().all(|&state| state == 2) {
        return refused(4, 0);
    }
    let kept = keep(&trip, lent.kept_speeds, lent.kept_co2);
    let windows = sweep(plan.reference, &lent.kept_co2[..kept], lent.ends);
    let mut answer = TripAnswer {
        seconds: n as u32,
        kept: kept as u32,
        windows: windows as u32,
        moves: (kept + windows) as u32,
        ..TripAnswer::default()
    };
    for first in 0..windows {
        let end = lent.ends[first] as usize;
        count_window(
            &plan,
            &lent.kept_speeds[first..end],
            &lent.kept_co2[first..end],
            &mut answer.classes,
        );
    }
    answer.verdict = reasons(&trip, &mut answer, lent.ranks);
    answer
}

fn plan_in_range(plan: &Plan) -> bool {
    (1..=20_000_000).contains(&plan.reference)
        && [plan.e1, plan.e2, plan.e3]
            .iter()
            .all(|e| (1..=2_000_000).contains(e))
        && [plan.lower, plan.urban, plan.rural, plan.motorway]
            .iter()
            .all(|&t| t <= 100)
}

fn second_in_range(trip: &Trip, i: usize) -> bool {
    match trip.states[i] {
        2 => true,
        1 | 3 => {
            trip.speeds[i] <= 25_000
                && (-50_000..=500_000).contains(&trip.altitudes[i])
                && trip.co2[i] <= 100_000
                && trip.nox[i] <= 10_000_000
        }
        _ => false,
    }
}

fn keep(trip: &Trip, kept_speeds: &mut [u16], kept_co2: &mut [u32]) -> usize {
    let mut kept = 0;
    for i in 0..trip.states.len() {
        if trip.states[i] == 1 && trip.speeds[i] >= 100 {
            kept_speeds[kept] = trip.speeds[i];
            kept_co2[kept] = trip.co2[i];
            kept += 1;
        }
    }
    kept
}

fn sweep(reference: u32, co2: &[u32], ends: &mut [u16]) -> usize {
    let (mut taken, mut dropped, mut mass) = (0, 0, 0u64);
    loop {
        if mass >= u64::from(reference) {
            ends[dropped] = taken as u16;
            mass -= u64::from(co2[dropped]);
            dropped += 1;
        } else if taken < co2.len() {
            mass += u64::from(co2[taken]);
            taken += 1;
        } else {
            return dropped;
        }
    }
}

/// A function of its own in the program too: put into `evaluate`, its two sums take half as long again.
#[inline(never)]
fn count_window(plan: &Plan, speeds: &[u16], co2: &[u32], classes: &mut [Class; 3]) {
    let s: u32 = speeds.iter().map(|&v| u32::from(v)).sum();
    let m: u32 = co2.iter().sum();
    let n = speeds.len() as i64;
    let (class, upper) = match 10 * i64::from(s) {
        v if v < 45_000 * n => (0, plan.urban),
        v if v < 80_000 * n => (1, plan.rural),
        v if v < 145_000 * n => (2, plan.motorway),
        _ => return,
    };
    // The curve at the exact mean, and what it is to be divided by.
    let line = |e: u32, f: u32, from: i64, over: i64| {
        let (e, f) = (i64::from(e), i64::from(f));
        (
            e * over * n + (f - e) * (10 * i64::from(s) - from * n),
            over * n,
        )
    };
    let (c, over) = if 10 * i64::from(s) <= 56_664 * n {
        line(plan.e1, plan.e2, 18_882, 37_782)
    } else {
        line(plan.e2, plan.e3, 56_664, 35_333)
    };
    classes[class].windows += 1;
    let figure = i128::from(36_000_000 * i64::from(m)) * i128::from(over);
    let end = |percent: i64| i128::from(percent * c) * i128::from(s);
    if end(100 - i64::from(plan.lower)) <= figure && figure <= end(100 + i64::from(upper)) {
        classes[class].inside += 1;
    }
}

fn bin_of(speed: u16) -> usize {
    usize::from(speed > 6_000) + usize::from(speed > 9_000)
}

/// Fills the figures of the answer and gives its verdict.
fn reasons(trip: &Trip, answer: &mut TripAnswer, ranks: &mut [u32]) -> u16 {
    let n = trip.states.len();
    let (mut missing, mut run, mut longest) = (0u32, 0u32, 0u32);
    let (mut slow, mut fast, mut faster, mut fastest) = (0u32, 0u32, 0u32, 0u32);
    let (mut first, mut last) = (None, 0);
    let (mut corrected, mut previous): (Option<i32>, Option<i32>) = (None, None);
    let (mut climb, mut high) = (0u64, false);
    for i in 0..n {
        if trip.states[i] == 2 {
            missing += 1;
            run += 1;
            longest = longest.max(run);
            previous = None;
            continue;
        }
        run = 0;
        let (speed, altitude) = (trip.speeds[i], trip.altitudes[i]);
        let bin = &mut answer.bins[bin_of(speed)];
        bin.seconds += 1;
        bin.distance += u32::from(speed);
        if trip.states[i] == 1 {
            bin.co2 += u64::from(trip.co2[i]);
            bin.nox += u64::from(trip.nox[i]);
        }
        slow += u32::from(speed < 100);
        fast += u32::from(speed > 10_000);
        faster += u32::from(speed > 14_500);
        fastest += u32::from(speed > 16_000);
        first.get_or_insert(altitude);
        last = altitude;
        let now = match (corrected, previous) {
            (Some(held), Some(before)) => {
                let d = i64::from(altitude) - i64::from(before);
                if 648 * d * d > 25 * i64::from(speed) * i64::from(speed) {
                    held
                } else {
                    altitude
                }
            }
            _ => altitude,
        };
        if let Some(before) = corrected {
            climb += (now - before).max(0) as u64;
        }
        high |= now > 130_000;
        corrected = Some(now);
        previous = Some(altitude);
    }
    answer.missing = missing;
    answer.climb = climb;
    for bin in &answer.bins {
        answer.total.seconds += bin.seconds;
        answer.total.distance += bin.distance;
        answer.total.co2 += bin.co2;
        answer.total.nox += bin.nox;
    }
    let mut verdict = 0;
    let mut set = |bit: u16, holds: bool| verdict |= u16::from(holds) << bit;
    let mut filled = 0;
    for which in 0..3 {
        let from = filled;
        filled = products(trip, which, ranks, from, &mut answer.bins[which]);
        let bin = answer.bins[which];
        set(11, bin.m < 100);
        set(12, bin.m >= 100 && too_lively(&bin));
        set(13, bin.m >= 100 && too_dull(&bin));
    }
    let total = u64::from(answer.total.distance);
    let [urban, _, motorway] = answer.bins;
    set(0, !(5_400..=7_200).contains(&n));
    set(1, 100 * u64::from(missing) >= n as u64 || longest > 30);
    for (bin, (low, most)) in answer.bins.iter().zip([(29, 44), (23, 43), (23, 43)]) {
        let part = 100 * u64::from(bin.distance);
        set(2, bin.distance < 5_760_000);
        set(3, part < low * total || part > most * total);
    }
    let seconds = u64::from(urban.seconds);
    let distance = u64::from(urban.distance);
    set(4, distance < 1_500 * seconds || distance > 4_000 * seconds);
    set(
        5,
        100 * u64::from(slow) < 6 * seconds || 100 * u64::from(slow) > 30 * seconds,
    );
    set(6, fast < 300);
    set(
        7,
        fastest > 0 || 100 * u64::from(faster) > 3 * u64::from(motorway.seconds),
    );
    set(
        8,
        first.is_some_and(|first: i32| first.abs_diff(last) > 10_000),
    );
    set(9, high);
    set(10, 300 * climb >= total);
    for class in &answer.classes {
        set(14, class.windows == 0);
        set(15, class.windows > 0 && 2 * class.inside < class.windows);
    }
    verdict
}

/// The products of a bin, ranked into the lane from `from` on; gives where they end.
fn products(trip: &Trip, which: usize, ranks: &mut [u32], from: usize, bin: &mut Bin) -> usize {
    let n = trip.states.len();
    let mut end = from;
    for i in 0..n {
        let (state, speed) = (trip.states[i], trip.speeds[i]);
        let gone = |j: usize| trip.states[j] == 2;
        if state == 2
            || bin_of(speed) != which
            || (i > 0 && gone(i - 1))
            || (i + 1 < n && gone(i + 1))
        {
            continue;
        }
        let before = if i > 0 { trip.speeds[i - 1] } else { 0 };
        let after = if i + 1 < n { trip.speeds[i + 1] } else { 0 };
        let d = i32::from(after) - i32::from(before);
        if d > 72 {
            ranks[end] = u32::from(speed) * d as u32;
            bin.t += u64::from(ranks[end]);
            end += 1;
        }
    }
    let ranked = &mut ranks[from..end];
    ranked.sort_unstable();
    bin.m = ranked.len() as u32;
    if ranked.len() >= 100 {
        let (j, r) = (95 * ranked.len() / 100, 95 * ranked.len() % 100);
        let x = u64::from(ranked[j - 1]);
        bin.q = 100 * x
            + if r == 0 {
                0
            } else {
                r as u64 * (u64::from(ranked[j]) - x)
            };
    }
    end
}

fn too_lively(bin: &Bin) -> bool {
    let (s, n, q) = (
        u128::from(bin.distance),
        u128::from(bin.seconds),
        u128::from(bin.q),
    );
    if s <= 7_460 * n {
        5 * q * n > 176_256 * s + 1_871_424_000 * n
    } else {
        25 * q * n > 480_816 * s + 12_289_968_000 * n
    }
}

fn too_dull(bin: &Bin) -> bool {
    let (s, n, t) = (
        u128::from(bin.distance),
        u128::from(bin.seconds),
        u128::from(bin.t),
    );
    if s <= 9_405 * n {
        3_125 * t * n + 36 * s * s < 394_875 * s * n
    } else {
        t < 18 * s
    }
}
