//! A whole stream into five lanes.

use crate::as_it_stands::read;
use crate::build::{
    check, measured, plan_bytes, random_seconds, second_bytes, stream_bytes, Lanes, PRINTED_PLAN,
};
use crate::random::Random;
use oracle::second::Second;
use oracle::stream::StreamAnswer;
use oracle::{Plan, Refusal};

/// Lanes of these lengths, filled with values that mark an untouched place.
fn marked(lengths: [usize; 5]) -> Lanes {
    Lanes {
        states: vec![0xee; lengths[0]],
        speeds: vec![0xeeee; lengths[1]],
        altitudes: vec![-0x0eee_eeee; lengths[2]],
        co2: vec![0xeeee_eeee; lengths[3]],
        nox: vec![0xeeee_eeee; lengths[4]],
    }
}

fn read_into(bytes: &[u8], lanes: &mut Lanes) -> Result<StreamAnswer, Refusal> {
    read(bytes, &mut lanes.lent())
}

/// Reads a stream that is refused, and sees that it wrote into no lane.
fn refusal_of(bytes: &[u8], lengths: [usize; 5]) -> Refusal {
    let mut lanes = marked(lengths);
    let refusal = read_into(bytes, &mut lanes).expect_err("a refusal");
    assert_eq!(lanes, marked(lengths), "a refused call wrote");
    refusal
}

/// The same with lanes of 8,200 places.
fn refusal_at(bytes: &[u8]) -> (u8, usize) {
    let refusal = refusal_of(bytes, [8_200; 5]);
    (refusal.number, refusal.place)
}

fn bad_plan() -> Plan {
    Plan {
        reference: 0,
        ..PRINTED_PLAN
    }
}

#[test]
fn an_empty_stream_is_11_at_0() {
    assert_eq!(refusal_at(&[]), (11, 0));
}

#[test]
fn a_plan_with_no_seconds_is_readable() {
    let mut lanes = marked([0; 5]);
    let answer = StreamAnswer {
        plan: PRINTED_PLAN,
        seconds: 0,
    };
    assert_eq!(
        read_into(&plan_bytes(&PRINTED_PLAN), &mut lanes),
        Ok(answer)
    );
}

#[test]
fn lanes_hold_the_seconds_and_nothing_else_changes() {
    let mut random = Random::seeded(1);
    for round in 0..200 {
        let seconds = random_seconds(&mut random, 20, false);
        let count = seconds.len();
        let longer = [0; 5].map(|_| count + random.between(0, 3) as usize);
        let mut lanes = marked(longer);
        let answer = read_into(&stream_bytes(&PRINTED_PLAN, &seconds), &mut lanes);
        let expected = StreamAnswer {
            plan: PRINTED_PLAN,
            seconds: count,
        };
        assert_eq!(answer, Ok(expected), "round {round}");
        let untouched = marked(longer);
        let read = Lanes::of(&seconds);
        let expected = Lanes {
            states: [&read.states, &untouched.states[count..]].concat(),
            speeds: [&read.speeds, &untouched.speeds[count..]].concat(),
            altitudes: [&read.altitudes, &untouched.altitudes[count..]].concat(),
            co2: [&read.co2, &untouched.co2[count..]].concat(),
            nox: [&read.nox, &untouched.nox[count..]].concat(),
        };
        assert_eq!(lanes, expected, "round {round}");
    }
}

#[test]
fn a_missing_second_is_zeros_in_state_2() {
    let mut lanes = marked([1; 5]);
    let bytes = [plan_bytes(&PRINTED_PLAN), vec![2]].concat();
    assert_eq!(read_into(&bytes, &mut lanes).unwrap().seconds, 1);
    let expected = Lanes {
        states: vec![2],
        speeds: vec![0],
        altitudes: vec![0],
        co2: vec![0],
        nox: vec![0],
    };
    assert_eq!(lanes, expected);
}

#[test]
fn a_stream_cut_anywhere() {
    let seconds = [
        measured(1, -1, 2, 3),
        Second::missing(),
        check(4, 5, 6, 7),
        measured(25_000, 500_000, 100_000, 10_000_000),
    ];
    let bytes = stream_bytes(&PRINTED_PLAN, &seconds);
    // Where each item begins, and where the last one ends.
    let starts = [0, 21, 36, 37, 52, 67];
    assert_eq!(bytes.len(), 67);
    for length in 1..=bytes.len() {
        match starts.iter().position(|&start| start == length) {
            Some(items) => {
                let mut lanes = marked([4; 5]);
                let answer = read_into(&bytes[..length], &mut lanes).unwrap();
                assert_eq!(answer.seconds, items - 1);
            }
            None => {
                let start = *starts.iter().rfind(|&&start| start < length).unwrap();
                assert_eq!(refusal_at(&bytes[..length]), (7, start));
            }
        }
    }
}

#[test]
fn the_plan_is_first_and_comes_once() {
    let plan = plan_bytes(&PRINTED_PLAN);
    let second = second_bytes(&measured(0, 0, 0, 0));
    assert_eq!(refusal_at(&second), (11, 0));
    assert_eq!(refusal_at(&[2]), (11, 0));
    assert_eq!(
        refusal_at(&[second.clone(), plan.clone()].concat()),
        (11, 0)
    );
    assert_eq!(refusal_at(&[plan.clone(), plan.clone()].concat()), (11, 21));
    assert_eq!(refusal_at(&[plan.clone(), second, plan].concat()), (11, 36));
}

#[test]
fn order_within_an_item() {
    let plan = plan_bytes(&PRINTED_PLAN);
    let bad_second = second_bytes(&measured(25_001, 0, 0, 0));
    // 8 needs only the kind byte, also where the plan is absent.
    assert_eq!(refusal_at(&[0x11]), (8, 0));
    assert_eq!(refusal_at(&[plan.clone(), vec![0]].concat()), (8, 21));
    // 7 before 11: a cut second before any plan, a cut second plan.
    assert_eq!(refusal_at(&bad_second[..14]), (7, 0));
    assert_eq!(
        refusal_at(&[plan.clone(), plan[..20].to_vec()].concat()),
        (7, 21)
    );
    // 11 before 5 and 3.
    assert_eq!(
        refusal_at(&[plan.clone(), plan_bytes(&bad_plan())].concat()),
        (11, 21)
    );
    assert_eq!(refusal_at(&bad_second), (11, 0));
    // 5 and 3 alone.
    assert_eq!(refusal_at(&plan_bytes(&bad_plan())), (5, 0));
    assert_eq!(
        refusal_at(&[plan.clone(), bad_second.clone()].concat()),
        (3, 21)
    );
    // 3 before 6.
    let lost = refusal_of(&[plan, bad_second].concat(), [0; 5]);
    assert_eq!(lost, Refusal::at(3, 21));
}

#[test]
fn the_first_bad_item_counts() {
    let plan = plan_bytes(&PRINTED_PLAN);
    let bad_second = second_bytes(&check(0, 0, 0, 10_000_001));
    let bytes = [plan, vec![2], bad_second, vec![0xff]].concat();
    assert_eq!(refusal_at(&bytes), (3, 22));
    assert_eq!(
        refusal_at(&[plan_bytes(&bad_plan()), vec![0xff]].concat()),
        (5, 0)
    );
}

#[test]
fn a_second_without_a_place_in_any_lane_is_6_at_its_offset() {
    let seconds = [measured(1, 2, 3, 4), Second::missing(), check(5, 6, 7, 8)];
    let bytes = stream_bytes(&PRINTED_PLAN, &seconds);
    let offsets = [21, 36, 37];
    for short in 0..5 {
        for (places, offset) in offsets.into_iter().enumerate() {
            let mut lengths = [3; 5];
            lengths[short] = places;
            assert_eq!(refusal_of(&bytes, lengths), Refusal::at(6, offset));
        }
    }
    assert!(read_into(&bytes, &mut marked([3, 4, 5, 6, 7])).is_ok());
}

#[test]
fn the_second_8_193_is_3_then_2_then_6() {
    let mut bytes = [plan_bytes(&PRINTED_PLAN), vec![2; 8_192]].concat();
    let offset = bytes.len();
    let mut lanes = marked([8_192; 5]);
    assert_eq!(read_into(&bytes, &mut lanes).unwrap().seconds, 8_192);
    let bad = [bytes.clone(), second_bytes(&measured(0, 0, 100_001, 0))].concat();
    assert_eq!(refusal_at(&bad), (3, offset));
    bytes.push(2);
    assert_eq!(refusal_at(&bytes), (2, offset));
    assert_eq!(refusal_of(&bytes, [8_192; 5]), Refusal::at(2, offset));
    assert_eq!(refusal_of(&bytes, [8_191; 5]), Refusal::at(6, offset - 1));
}
