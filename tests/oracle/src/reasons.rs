//! "The sixteen reasons".

use crate::bound::Range;
use crate::dynamics::{too_dull, too_lively};
use crate::numbers::{MOTORWAY, URBAN};
use crate::rules::{Rules, Slip};

/// "seconds, distance, CO2 and NOx (masses of state 1 only)"
#[derive(Clone, Copy, Debug, Default, PartialEq, Eq)]
pub struct Tally {
    pub seconds: i128,
    pub distance: i128,
    pub co2: i128,
    pub nox: i128,
}

/// "for each of three bins, seconds, distance, CO2 and NOx .., M, T and Q (zero where M is below
/// 100)"
#[derive(Clone, Copy, Debug, Default, PartialEq, Eq)]
pub struct BinFigures {
    pub tally: Tally,
    pub m: i128,
    pub t: i128,
    pub q: i128,
}

/// "for each class windows and windows inside"
#[derive(Clone, Copy, Debug, Default, PartialEq, Eq)]
pub struct ClassFigures {
    pub windows: i128,
    pub inside: i128,
}

/// Every figure of a trip that a reason looks at.
#[derive(Clone, Copy, Debug, PartialEq, Eq)]
pub struct Figures {
    /// n, "all seconds".
    pub seconds: i128,
    pub missing: i128,
    /// The longest run of missing seconds.
    pub missing_in_a_row: i128,
    /// Urban, rural, motorway.
    pub bins: [BinFigures; 3],
    /// The trip's totals; its distance is "total S".
    pub total: Tally,
    /// "urban seconds below 100"
    pub urban_below_100: i128,
    /// "seconds above 10,000"
    pub above_10_000: i128,
    /// "seconds above 14,500"
    pub above_14_500: i128,
    /// Seconds with "a speed above 16,000".
    pub above_16_000: i128,
    pub first_altitude: i128,
    pub last_altitude: i128,
    pub highest_corrected: i128,
    pub climb: i128,
    /// Urban, rural, motorway.
    pub classes: [ClassFigures; 3],
}

/// Whether "means and shares are compared by cross-multiplying", `part` of `whole`; a wrong reading
/// rounds the quotient down first, or takes an empty whole for one outside.
fn outside(rules: &Rules, within: &Range<i128>, part: i128, whole: i128, slips: [Slip; 2]) -> bool {
    let [rounded, empty_outside] = slips;
    if whole == 0 && rules.slips(empty_outside) {
        return true;
    }
    if whole != 0 && rules.slips(rounded) {
        return !within.holds(part.div_euclid(whole));
    }
    !within.holds_times(part, whole)
}

/// 2: "a part's S below 5,760,000".
fn a_part_too_short(rules: &Rules, f: &Figures) -> bool {
    let reason = &rules.reasons;
    let fits = |part: usize| reason.part_distance[part].holds(f.bins[part].tally.distance);
    !reason.parts_of_2.iter().all(|&part| fits(part))
}

/// 3: "a part's share of S outside, in percent, urban 29 to 44, rural and motorway 23 to 43".
fn a_share_outside(rules: &Rules, f: &Figures) -> bool {
    let reason = &rules.reasons;
    let by_seconds = rules.slips(Slip::ShareOfSecondsInReason3);
    let size = |tally: &Tally| {
        if by_seconds {
            tally.seconds
        } else {
            tally.distance
        }
    };
    let whole = size(&f.total);
    let slips = [Slip::ShareRoundedInReason3, Slip::NoDistanceSets3];
    reason.parts_of_3.iter().any(|&part| {
        let size = 100 * size(&f.bins[part].tally);
        outside(rules, &reason.share[part], size, whole, slips)
    })
}

/// 5: "urban seconds below 100 not 6 to 30 percent of urban seconds".
fn standing_outside(rules: &Rules, f: &Figures) -> bool {
    let of_all = rules.slips(Slip::StandingOfAllSeconds);
    let whole = if of_all {
        f.seconds
    } else {
        f.bins[URBAN].tally.seconds
    };
    let slips = [Slip::StandingShareRounded, Slip::EmptyBinSets5];
    outside(
        rules,
        &rules.reasons.standing,
        100 * f.urban_below_100,
        whole,
        slips,
    )
}

/// 7: "a speed above 16,000, or seconds above 14,500 over 3 percent of motorway seconds".
fn too_fast(rules: &Rules, f: &Figures) -> bool {
    let reason = &rules.reasons;
    let whole = match rules.slip {
        Some(Slip::FastOfAllSeconds) => f.seconds,
        Some(Slip::FastOfRecordedSeconds) => f.total.seconds,
        _ => f.bins[MOTORWAY].tally.seconds,
    };
    let slips = [Slip::FastShareRounded, Slip::EmptyBinSets7];
    f.above_16_000 > 0
        || outside(
            rules,
            &reason.fast_share,
            100 * f.above_14_500,
            whole,
            slips,
        )
}

/// 8: "first and last recorded altitude differ by over 10,000".
fn ends_differ(rules: &Rules, f: &Figures) -> bool {
    let up = f.last_altitude - f.first_altitude;
    let difference = match rules.slip {
        Some(Slip::OnlyARiseInReason8) => up,
        Some(Slip::OnlyAFallInReason8) => -up,
        _ => up.abs(),
    };
    !rules.reasons.altitude_difference.holds(difference)
}

/// 11: "a bin with M below 100 (that bin is judged for neither 12 nor 13)".
fn is_judged(rules: &Rules, bin: &BinFigures) -> bool {
    rules.reasons.products.holds(bin.m)
}

/// 12 and 13: whether one of these bins is so; of those with M below 100 only a wrong reading asks.
fn a_judged_bin(
    rules: &Rules,
    f: &Figures,
    bins: &[usize],
    of_few_products: Slip,
    is_so: impl Fn(&BinFigures) -> bool,
) -> bool {
    bins.iter().any(|&bin| {
        let bin = &f.bins[bin];
        (is_judged(rules, bin) || rules.slips(of_few_products)) && is_so(bin)
    })
}

/// 12: "a bin too lively".
fn a_bin_too_lively(rules: &Rules, f: &Figures) -> bool {
    let bins = &rules.reasons.parts_of_12;
    a_judged_bin(rules, f, bins, Slip::LivelyJudgedOfFewProducts, |bin| {
        too_lively(rules, bin.tally.distance, bin.tally.seconds, bin.q)
    })
}

/// 13: "a bin too dull".
fn a_bin_too_dull(rules: &Rules, f: &Figures) -> bool {
    let bins = &rules.reasons.parts_of_13;
    a_judged_bin(rules, f, bins, Slip::DullJudgedOfFewProducts, |bin| {
        too_dull(rules, bin.tally.distance, bin.tally.seconds, bin.t)
    })
}

/// 14: "a class without windows".
fn a_class_without_windows(rules: &Rules, f: &Figures) -> bool {
    let reason = &rules.reasons;
    let has_windows = |class: usize| reason.class_windows.holds(f.classes[class].windows);
    !reason.parts_of_14.iter().all(|&class| has_windows(class))
}

/// 15: "a class with windows, under half inside".
fn a_class_under_half_inside(rules: &Rules, f: &Figures) -> bool {
    let reason = &rules.reasons;
    let under_half = |class: &ClassFigures| {
        let inside = reason.half_times * class.inside;
        let without = class.windows == 0 && rules.slips(Slip::ClassWithoutWindowsSets15);
        without || class.windows > 0 && !reason.half.passes(inside.cmp(&class.windows))
    };
    let mut classes = reason.parts_of_15.iter();
    classes.any(|&class| under_half(&f.classes[class]))
}

/// "Bit set when:" each reason in its order.
pub fn each_reason(rules: &Rules, f: &Figures) -> [bool; 16] {
    let reason = &rules.reasons;
    let mean = &f.bins[reason.part_of_4].tally;
    let slips_of_4 = [Slip::MeanRoundedInReason4, Slip::EmptyBinSets4];
    let missing = reason.missing_times * f.missing;
    let climb = reason.climb_times * f.climb;
    [
        // 0: n outside 5,400 to 7,200.
        !reason.seconds.holds(f.seconds),
        // 1: 100 times missing not below n, or over 30 missing in a row.
        !reason.missing.passes(missing.cmp(&f.seconds))
            || !reason.missing_in_a_row.holds(f.missing_in_a_row),
        a_part_too_short(rules, f),
        a_share_outside(rules, f),
        // 4: urban mean outside 1,500 to 4,000.
        outside(rules, &reason.mean, mean.distance, mean.seconds, slips_of_4),
        standing_outside(rules, f),
        // 6: fewer than 300 seconds above 10,000.
        !reason.fast_seconds.holds(f.above_10_000),
        too_fast(rules, f),
        ends_differ(rules, f),
        // 9: a corrected altitude above 130,000.
        !reason.highest.holds(f.highest_corrected),
        // 10: 300 times climb not below total S.
        !reason.climb.passes(climb.cmp(&f.total.distance)),
        // 11: a bin with M below 100.
        !reason
            .parts_of_11
            .iter()
            .all(|&part| is_judged(rules, &f.bins[part])),
        a_bin_too_lively(rules, f),
        a_bin_too_dull(rules, f),
        a_class_without_windows(rules, f),
        a_class_under_half_inside(rules, f),
    ]
}

/// "The verdict is a sixteen-bit number, a bit per reason, zero meaning valid."
pub fn reasons(rules: &Rules, f: &Figures) -> u16 {
    let mut verdict = 0;
    for (bit, set) in rules.reasons.bits.iter().zip(each_reason(rules, f)) {
        if set {
            verdict += 1 << bit;
        }
    }
    verdict
}

/// "masks set and test each reason": whether a verdict has any of the reasons of a mask, bit by bit.
pub fn has_reason(verdict: u16, mask: u16) -> bool {
    let is_set = |number: u16, bit: u32| number / (1 << bit) % 2 == 1;
    (0..u16::BITS).any(|bit| is_set(verdict, bit) && is_set(mask, bit))
}
