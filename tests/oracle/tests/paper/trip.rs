//! Whole-trip evaluation.

use crate::as_it_stands::{
    d_of_second, evaluate, figures, percentile, recorded, sweep, trip_windows,
};
use crate::build::{
    bad_seconds, check, measured, missing_with_values, of_speeds, random_second, refused,
    valid_trip, Lanes, Lent, GUARD_16, GUARD_32, PRINTED_PLAN,
};
use crate::random::Random;
use oracle::fraction::whole;
use oracle::numbers::{MOTORWAY, RURAL};
use oracle::reasons::{BinFigures, ClassFigures, Figures, Tally};
use oracle::second::Second;
use oracle::trip::TripAnswer;
use oracle::windows::{SweepState, WindowFigures};
use oracle::{Plan, Refusal};

fn evaluated(plan: &Plan, seconds: &[Second]) -> (TripAnswer, Lent) {
    let mut lent = Lent::of(seconds.len() + 2);
    let answer = evaluate(plan, Lanes::of(seconds).trip(), &mut lent.lanes()).unwrap();
    (answer, lent)
}

fn figures_of(seconds: &[Second]) -> Figures {
    figures(&PRINTED_PLAN, Lanes::of(seconds).trip())
}

/// A lane's beginning, its other places holding the guard.
fn then_guards<T: Copy>(written: &[T], guard: T, places: usize) -> Vec<T> {
    let mut lane = written.to_vec();
    lane.resize(places, guard);
    lane
}

/// A trip with a second of each state and each bin.
fn small_trip() -> (Plan, [Second; 8]) {
    let seconds = [
        check(1_000, 50, 9, 9),      // urban, D 4,000
        measured(4_000, 60, 5, 70),  // urban, D 6,000
        measured(7_000, 70, 0, 30),  // rural, D 5,000
        measured(9_000, 80, 6, 1),   // rural, D 500
        measured(7_500, 90, 7, 2),   // rural, D 1,000
        measured(10_000, 400, 8, 4), // motorway, beside the missing second
        missing_with_values(),
        measured(99, 410, 1, 8), // urban, beside it; not kept
    ];
    let plan = Plan {
        reference: 11,
        ..PRINTED_PLAN
    };
    (plan, seconds)
}

#[test]
fn a_small_trip_figure_by_figure() {
    let (plan, seconds) = small_trip();
    let (answer, lent) = evaluated(&plan, &seconds);
    let bin = |seconds, distance, co2, nox, m, t| BinFigures {
        tally: Tally {
            seconds,
            distance,
            co2,
            nox,
        },
        m,
        t,
        q: 0,
    };
    let urban_t = 1_000 * 4_000 + 4_000 * 6_000;
    let rural_t = 7_000 * 5_000 + 9_000 * 500 + 7_500 * 1_000;
    let classes =
        [(0, 0), (2, 0), (2, 0)].map(|(windows, inside)| ClassFigures { windows, inside });
    let expected = TripAnswer {
        reasons: 0b1100_1100_0110_1111,
        seconds: 8,
        missing: 1,
        kept: 5,
        windows: 4,
        moves: 9,
        bins: [
            bin(3, 5_099, 6, 78, 2, urban_t),
            bin(3, 23_500, 13, 33, 3, rural_t),
            bin(1, 10_000, 8, 4, 0, 0),
        ],
        total: Tally {
            seconds: 7,
            distance: 38_599,
            co2: 27,
            nox: 115,
        },
        climb: 360,
        classes,
    };
    assert_eq!(answer, expected);
    let ranks = [4_000_000, 24_000_000, 4_500_000, 7_500_000, 35_000_000];
    let expected = Lent {
        kept_speeds: then_guards(&[4_000, 7_000, 9_000, 7_500, 10_000], GUARD_16, 10),
        kept_co2: then_guards(&[5, 0, 6, 7, 8], GUARD_32, 10),
        ends: then_guards(&[3, 4, 4, 5], GUARD_16, 10),
        ranks: then_guards(&ranks, GUARD_32, 10),
    };
    assert_eq!(lent, expected);
}

#[test]
fn windows_of_a_small_trip() {
    let (plan, seconds) = small_trip();
    let window = |v, class, c, w| WindowFigures {
        v: whole(v),
        class: Some(class),
        c: whole(c),
        w: whole(w),
        inside: false,
    };
    let expected = [
        window(66_666, RURAL, 145_661, 198),    // 11 mg in 20,000
        window(78_333, RURAL, 152_265, 199),    // 13 mg in 23,500
        window(82_500, MOTORWAY, 154_624, 283), // 13 mg in 16,500
        window(87_500, MOTORWAY, 157_454, 308), // 15 mg in 17,500
    ];
    assert_eq!(trip_windows(&plan, Lanes::of(&seconds).trip()), expected);
}

#[test]
fn a_valid_trip_has_no_reason() {
    let (plan, seconds) = valid_trip();
    let (answer, lent) = evaluated(&plan, &seconds);
    assert_eq!(answer.reasons, 0);
    for (class, bin) in answer.classes.iter().zip(&answer.bins) {
        assert!(class.windows > 0 && class.inside == class.windows);
        assert!(bin.m >= 100 && bin.q > 0);
    }
    let ranked: i128 = answer.bins.iter().map(|bin| bin.m).sum();
    assert_eq!(lent.ranks[ranked as usize], GUARD_32);
    assert!(lent.ranks[ranked as usize - 1] <= 625_000_000);
}

#[test]
fn counts_of_speeds() {
    let speeds = [
        0, 99, 100, 6_000, 10_000, 10_001, 14_500, 14_501, 16_000, 16_001,
    ];
    let mut seconds: Vec<Second> = speeds.map(|v| measured(v, 0, 0, 0)).to_vec();
    seconds.extend(speeds.map(|v| check(v, 0, 0, 0)));
    seconds.push(missing_with_values());
    let f = figures_of(&seconds);
    assert_eq!((f.seconds, f.missing), (21, 1));
    assert_eq!(f.urban_below_100, 4);
    assert_eq!(f.above_10_000, 10);
    assert_eq!(f.above_14_500, 6);
    assert_eq!(f.above_16_000, 2);
    assert_eq!(f.bins.map(|bin| bin.tally.seconds), [8, 0, 12]);
    let slow_missing = [Second::missing(), measured(100, 0, 0, 0)];
    assert_eq!(figures_of(&slow_missing).urban_below_100, 0);
}

#[test]
fn missing_in_a_row_wherever_it_stands() {
    let (s, gap) = (measured(0, 0, 0, 0), missing_with_values());
    assert_eq!(figures_of(&[s, s]).missing_in_a_row, 0);
    assert_eq!(figures_of(&[gap, gap, s, gap]).missing_in_a_row, 2);
    assert_eq!(
        figures_of(&[gap, s, gap, gap, gap, s, gap]).missing_in_a_row,
        3
    );
    assert_eq!(figures_of(&[s, gap, s, gap, gap]).missing_in_a_row, 2);
    assert_eq!(figures_of(&[s, gap, s, gap, gap]).missing, 3);
}

#[test]
fn altitudes_of_the_first_and_last_second_that_is_not_missing() {
    let gap = missing_with_values();
    let seconds = [
        gap,
        check(0, 7, 0, 0),
        measured(0, 90, 0, 0),
        check(0, -5, 0, 0),
        gap,
    ];
    let f = figures_of(&seconds);
    assert_eq!((f.first_altitude, f.last_altitude), (7, -5));
}

#[test]
fn a_held_altitude_is_not_the_highest() {
    let seconds = [measured(0, 130_000, 0, 0), measured(0, 130_001, 0, 0)];
    assert_eq!(figures_of(&seconds).highest_corrected, 130_000);
    let seconds = [measured(9, 129_999, 0, 0), measured(9, 130_001, 0, 0)];
    assert_eq!(figures_of(&seconds).highest_corrected, 129_999);
    let seconds = [measured(9, 130_000, 0, 0), measured(9, 130_001, 0, 0)];
    assert_eq!(figures_of(&seconds).highest_corrected, 130_001);
    let below = [measured(0, -900, 0, 0), check(0, -950, 0, 0)];
    assert_eq!(figures_of(&below).highest_corrected, -900);
}

/// A trip whose products are 1,000 times 100, 101 and so on, `m` of them, all urban.
fn with_products(m: u16) -> Vec<Second> {
    let mut seconds = vec![Second::missing()];
    for more in 0..m {
        // The second one has D 100 + more, the third a negative one, the others none.
        seconds.extend(of_speeds(&[900, 1_000, 1_000 + more, 0]));
        seconds.push(Second::missing());
    }
    seconds
}

#[test]
fn q_is_zero_where_m_is_below_100_and_t_is_not() {
    for (m, q) in [(99, 0), (100, 100 * 1_000 * 194)] {
        let seconds = with_products(m);
        let (answer, lent) = evaluated(&PRINTED_PLAN, &seconds);
        let products: Vec<u32> = (0..u32::from(m)).map(|more| 1_000 * (100 + more)).collect();
        let t: u32 = products.iter().sum();
        let bin = answer.bins[0];
        assert_eq!((bin.m, bin.t, bin.q), (i128::from(m), i128::from(t), q));
        assert_eq!(
            lent.ranks,
            then_guards(&products, GUARD_32, seconds.len() + 2)
        );
        assert_eq!(answer.reasons & 0x0800, 0x0800);
    }
}

#[test]
fn s_and_n_of_the_dynamics_are_those_of_all_seconds_of_the_bin() {
    let seconds = with_products(100);
    let bin = figures_of(&seconds).bins[0];
    assert_eq!(bin.tally.seconds, 400);
    assert_eq!(bin.tally.distance, 100 * 2_900 + 99 * 50);
}

#[test]
fn windows_without_a_class_stand_in_line_2_alone() {
    let plan = Plan {
        reference: 1,
        ..PRINTED_PLAN
    };
    let seconds = [measured(14_500, 0, 1, 0), measured(14_499, 0, 1, 0)];
    let (answer, _) = evaluated(&plan, &seconds);
    assert_eq!((answer.windows, answer.moves), (2, 4));
    assert_eq!(answer.classes.map(|class| class.windows), [0, 0, 1]);
}

#[test]
fn a_trip_of_check_seconds_alone_is_accepted() {
    let (answer, lent) = evaluated(&PRINTED_PLAN, &[check(5_000, 0, 100, 100)]);
    assert_eq!((answer.seconds, answer.kept, answer.windows), (1, 0, 0));
    let tally = Tally {
        seconds: 1,
        distance: 5_000,
        co2: 0,
        nox: 0,
    };
    assert_eq!(answer.total, tally);
    assert_eq!(lent, Lent::of(3));
}

#[test]
fn random_trips_agree_with_the_single_calls() {
    let mut random = Random::seeded(10);
    for _ in 0..300 {
        let count = random.between(1, 250) as usize;
        let seconds: Vec<Second> = (0..count)
            .map(|_| random_second(&mut random, true))
            .collect();
        let plan = Plan {
            reference: random.between(1, 60_000) as u32,
            ..PRINTED_PLAN
        };
        if !seconds.iter().any(recorded) {
            continue;
        }
        let (answer, lent) = evaluated(&plan, &seconds);
        agrees_with_the_sums(&answer);
        agrees_with_the_sweep(&plan, &seconds, &answer, &lent);
        agrees_with_d_and_percentile(&seconds, &answer, &lent);
    }
}

/// "Those four add up over the bins to the trip's, their seconds to n less the missing."
fn agrees_with_the_sums(answer: &TripAnswer) {
    let add = |figure: fn(&Tally) -> i128| answer.bins.iter().map(|bin| figure(&bin.tally)).sum();
    let sums = Tally {
        seconds: add(|tally| tally.seconds),
        distance: add(|tally| tally.distance),
        co2: add(|tally| tally.co2),
        nox: add(|tally| tally.nox),
    };
    assert_eq!(answer.total, sums);
    assert_eq!(answer.total.seconds, answer.seconds - answer.missing);
}

fn agrees_with_the_sweep(plan: &Plan, seconds: &[Second], answer: &TripAnswer, lent: &Lent) {
    let kept: Vec<&Second> = seconds
        .iter()
        .filter(|s| s.state == 1 && s.speed >= 100)
        .collect();
    let speeds: Vec<u16> = kept.iter().map(|s| s.speed).collect();
    let masses: Vec<u32> = kept.iter().map(|s| s.co2).collect();
    let places = seconds.len() + 2;
    let mut ends = vec![GUARD_16; places];
    let begin = SweepState::default();
    let swept = sweep(&masses, &mut ends, plan.reference, begin, u64::MAX).unwrap();
    assert_eq!(lent.kept_speeds, then_guards(&speeds, GUARD_16, places));
    assert_eq!(lent.kept_co2, then_guards(&masses, GUARD_32, places));
    assert_eq!(lent.ends, ends);
    assert_eq!(answer.moves, i128::from(swept.moves));
    assert_eq!(answer.windows, i128::from(swept.state.dropped));
    assert_eq!(answer.kept, masses.len() as i128);
}

fn agrees_with_d_and_percentile(seconds: &[Second], answer: &TripAnswer, lent: &Lent) {
    let lanes = Lanes::of(seconds);
    let mut begin = 0;
    let bins = [(0, 6_000), (6_001, 9_000), (9_001, 25_000)];
    for ((low, high), bin) in bins.into_iter().zip(answer.bins) {
        let mut products = Vec::new();
        for (index, second) in seconds.iter().enumerate() {
            let d = d_of_second(lanes.trip(), index).unwrap().unwrap_or(0);
            if d > 72 && (low..=high).contains(&second.speed) {
                products.push(u32::from(second.speed) * d as u32);
            }
        }
        let end = begin + products.len();
        assert_eq!(bin.m, products.len() as i128);
        assert_eq!(bin.t, products.iter().map(|&p| i128::from(p)).sum());
        assert_eq!(bin.q, percentile(&products, &mut [0; 252]).unwrap_or(0));
        products.sort();
        assert_eq!(lent.ranks[begin..end], products);
        begin = end;
    }
    assert!(lent.ranks[begin..].iter().all(|&rank| rank == GUARD_32));
}

/// Evaluates a trip that is refused, and sees that it wrote into no lane.
fn refusal_of(plan: &Plan, lanes: &Lanes, lent: &mut Lent) -> Refusal {
    let before = lent.clone();
    let refusal = evaluate(plan, lanes.trip(), &mut lent.lanes()).expect_err("a refusal");
    assert_eq!(*lent, before, "a refused call wrote");
    refusal
}

/// "Trip: 5, 1, 2, 6, 3, 4": every set of faults gives the first of them.
#[test]
fn order_of_refusals() {
    for faults in 1..64 {
        let [plan, differ, many, short, value, none] =
            [1, 2, 4, 8, 16, 32].map(|bit| faults & bit != 0);
        let count = if many { 8_193 } else { 8_192 };
        let ordinary = if none {
            missing_with_values()
        } else {
            measured(200, 0, 9, 0)
        };
        let mut seconds = vec![ordinary; count];
        if value {
            seconds[4_000].state = 0;
        }
        let mut lanes = Lanes::of(&seconds);
        if differ {
            lanes.co2.pop();
        }
        let mut lent = Lent::of(if short { 8_191 } else { count });
        let bad_plan = Plan {
            e2: 0,
            ..PRINTED_PLAN
        };
        let plan = if plan { bad_plan } else { PRINTED_PLAN };
        let expected = if plan == bad_plan {
            refused(5, 0)
        } else if differ {
            refused(1, 0)
        } else if many {
            refused(2, 0)
        } else if short {
            refused(6, 0)
        } else if value {
            refused(3, 4_000)
        } else {
            refused::<()>(4, 0)
        };
        let refusal = refusal_of(&plan, &lanes, &mut lent);
        assert_eq!(Err(refusal), expected, "{faults:06b}");
    }
}

#[test]
fn lanes_that_differ_in_length_are_1() {
    let whole = Lanes::of(&of_speeds(&[200, 300, 400]));
    for lanes in whole.each_shorter() {
        assert_eq!(
            refusal_of(&PRINTED_PLAN, &lanes, &mut Lent::of(9)),
            Refusal::at(1, 0)
        );
    }
}

#[test]
fn each_lent_lane_needs_a_place_per_second_also_where_fewer_would_be_used() {
    let lanes = Lanes::of(&[check(0, 0, 0, 0), check(0, 0, 0, 0)]);
    let shorten: [fn(&mut Lent); 4] = [
        |lent| lent.kept_speeds.truncate(1),
        |lent| lent.kept_co2.truncate(1),
        |lent| lent.ends.truncate(1),
        |lent| lent.ranks.truncate(1),
    ];
    for shorten in shorten {
        let mut lent = Lent::of(2);
        assert!(evaluate(&PRINTED_PLAN, lanes.trip(), &mut lent.lanes()).is_ok());
        shorten(&mut lent);
        assert_eq!(
            refusal_of(&PRINTED_PLAN, &lanes, &mut lent),
            Refusal::at(6, 0)
        );
    }
}

#[test]
fn the_first_bad_second_is_the_place_of_3() {
    let good = measured(25_000, 500_000, 100_000, 10_000_000);
    let wild = missing_with_values();
    for bad in bad_seconds() {
        for place in 0..3 {
            let mut seconds = [good, wild, good, bad, bad];
            seconds[place] = bad;
            let lanes = Lanes::of(&seconds);
            let refusal = refusal_of(&PRINTED_PLAN, &lanes, &mut Lent::of(5));
            assert_eq!(refusal, Refusal::at(3, place));
        }
    }
}

#[test]
fn no_second_in_state_1_or_3_is_4() {
    for count in [0, 1, 8_192] {
        let lanes = Lanes::of(&vec![missing_with_values(); count]);
        let refusal = refusal_of(&PRINTED_PLAN, &lanes, &mut Lent::of(count));
        assert_eq!(refusal, Refusal::at(4, 0));
    }
}
