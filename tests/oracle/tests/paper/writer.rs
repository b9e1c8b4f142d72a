//! A plan and lanes into a stream.

use crate::as_it_stands::{read, write};
use crate::build::{
    bad_seconds, check, measured, missing_with_values, of_speeds, random_seconds, stream_bytes,
    Lanes, PRINTED_PLAN,
};
use crate::random::Random;
use oracle::second::Second;
use oracle::stream::StreamAnswer;
use oracle::writer::WriteAnswer;
use oracle::{Plan, Refusal};

/// What the caller left in the buffer.
const GUARD: u8 = 0xee;

/// More bytes than any trip's stream has.
const ROOM: usize = 130_000;

fn written(bytes: usize) -> WriteAnswer {
    let refusal = None;
    WriteAnswer { refusal, bytes }
}

/// The stream that is written of seconds into a buffer with some places more, which stay as they
/// were.
fn stream_of(plan: &Plan, seconds: &[Second]) -> Vec<u8> {
    let mut buffer = vec![GUARD; ROOM];
    let answer = write(plan, Lanes::of(seconds).trip(), &mut buffer);
    assert_eq!(answer.refusal, None);
    let rest = buffer.split_off(answer.bytes);
    assert!(rest.iter().all(|&byte| byte == GUARD), "a place behind");
    buffer
}

/// Writes what is refused, and sees that nothing was written.
fn refusal_of(plan: &Plan, lanes: &Lanes, places: usize) -> Refusal {
    let mut buffer = vec![GUARD; places];
    let answer = write(plan, lanes.trip(), &mut buffer);
    assert_eq!(buffer, vec![GUARD; places], "a refused call wrote");
    assert_eq!(answer.bytes, 0);
    answer.refusal.expect("a refusal")
}

#[test]
fn bytes_as_the_table_lays_them_out() {
    let seconds = [
        measured(3_600, -2, 66_051, 263_430),
        missing_with_values(),
        check(25_000, 500_000, 0, 1),
    ];
    let expected = [
        &[0x10, 0, 0, 0, 7, 0, 3, 0x0d, 0x40, 0, 2, 0x22, 0xe0][..],
        &[0, 2, 0x71, 0, 25, 45, 40, 40],
        &[
            1, 0x0e, 0x10, 0xff, 0xff, 0xff, 0xfe, 0, 1, 2, 3, 0, 4, 5, 6,
        ],
        &[2],
        &[3, 0x61, 0xa8, 0, 7, 0xa1, 0x20, 0, 0, 0, 0, 0, 0, 0, 1],
    ];
    assert_eq!(stream_of(&PRINTED_PLAN, &seconds), expected.concat());
}

#[test]
fn a_trip_without_seconds_or_with_missing_ones_alone_is_written() {
    for count in [0, 1, 8_192] {
        let seconds = vec![missing_with_values(); count];
        let expected = stream_bytes(&PRINTED_PLAN, &vec![Second::missing(); count]);
        assert_eq!(stream_of(&PRINTED_PLAN, &seconds), expected);
    }
}

#[test]
fn a_buffer_is_long_enough_exactly_when_it_holds_the_bytes_of_this_stream() {
    let seconds = [
        measured(1, 2, 3, 4),
        missing_with_values(),
        check(0, 0, 0, 0),
    ];
    let lanes = Lanes::of(&seconds);
    let needed = stream_bytes(&PRINTED_PLAN, &seconds).len();
    assert_eq!(needed, 21 + 15 + 1 + 15);
    for places in 0..needed {
        assert_eq!(refusal_of(&PRINTED_PLAN, &lanes, places), Refusal::new(6));
    }
    for places in needed..needed + 40 {
        let mut buffer = vec![GUARD; places];
        let answer = write(&PRINTED_PLAN, lanes.trip(), &mut buffer);
        assert_eq!(answer, written(needed));
        let expected = stream_bytes(&PRINTED_PLAN, &seconds);
        assert_eq!(buffer[..needed], expected);
        assert_eq!(buffer[needed..], vec![GUARD; places - needed]);
    }
}

/// "5, 1, 2, 3, then 6": every set of faults gives the first of them.
#[test]
fn order_of_refusals() {
    for faults in 1..32 {
        let [plan, differ, many, value, short] = [1, 2, 4, 8, 16].map(|bit| faults & bit != 0);
        let mut seconds = vec![measured(200, 0, 9, 0); if many { 8_193 } else { 8_192 }];
        if value {
            seconds[4_000].nox = 10_000_001;
        }
        let needed = stream_bytes(&PRINTED_PLAN, &seconds).len();
        let mut lanes = Lanes::of(&seconds);
        if differ {
            lanes.altitudes.pop();
        }
        let mut of = PRINTED_PLAN;
        if plan {
            of.upper[2] = 101;
        }
        let each = [
            (plan, Refusal::new(5)),
            (differ, Refusal::new(1)),
            (many, Refusal::new(2)),
            (value, Refusal::at(3, 4_000)),
            (short, Refusal::new(6)),
        ];
        let first = each.iter().find(|(holds, _)| *holds);
        let expected = first.expect("a fault").1;
        let refusal = refusal_of(&of, &lanes, needed - usize::from(short));
        assert_eq!(refusal, expected, "{faults:05b}");
    }
}

#[test]
fn lanes_that_differ_in_length_are_1() {
    let whole = Lanes::of(&of_speeds(&[200, 300, 400]));
    for lanes in whole.each_shorter() {
        assert_eq!(refusal_of(&PRINTED_PLAN, &lanes, 90), Refusal::new(1));
    }
}

#[test]
fn as_many_seconds_as_a_trip_has_and_one_more() {
    let full = vec![check(25_000, -50_000, 100_000, 10_000_000); 8_193];
    let fits = &full[..8_192];
    let expected = stream_bytes(&PRINTED_PLAN, fits);
    assert_eq!(stream_of(&PRINTED_PLAN, fits), expected);
    let refusal = refusal_of(&PRINTED_PLAN, &Lanes::of(&full), ROOM);
    assert_eq!(refusal, Refusal::new(2));
}

#[test]
fn the_first_bad_second_is_the_place_of_3() {
    let (good, wild) = (measured(0, 0, 0, 0), missing_with_values());
    for bad in bad_seconds() {
        for place in 0..3 {
            let mut seconds = [good, wild, good, bad, bad];
            seconds[place] = bad;
            let refusal = refusal_of(&PRINTED_PLAN, &Lanes::of(&seconds), 90);
            assert_eq!(refusal, Refusal::at(3, place));
        }
    }
}

#[test]
fn a_tail_is_trimmed_by_handing_over_shorter_lanes() {
    let mut random = Random::seeded(7);
    let seconds = random_seconds(&mut random, 30, true);
    let whole = stream_of(&PRINTED_PLAN, &seconds);
    for kept in 0..=seconds.len() {
        let trimmed = stream_of(&PRINTED_PLAN, &seconds[..kept]);
        assert!(whole.starts_with(&trimmed), "{kept} seconds kept");
    }
}

/// "reading back gives zeros there and otherwise the same lanes", and that, "rewritten, is the same
/// bytes".
#[test]
fn written_then_read_then_written() {
    let mut random = Random::seeded(8);
    for round in 0..300 {
        let seconds = random_seconds(&mut random, 40, true);
        let stream = stream_of(&PRINTED_PLAN, &seconds);
        let mut lanes = Lanes::of(&vec![missing_with_values(); seconds.len()]);
        let expected = StreamAnswer {
            plan: PRINTED_PLAN,
            seconds: seconds.len(),
        };
        assert_eq!(read(&stream, &mut lanes.lent()), Ok(expected));
        let zeroed = |second: &Second| match second.state {
            2 => Second::missing(),
            _ => *second,
        };
        let zeroed: Vec<Second> = seconds.iter().map(zeroed).collect();
        assert_eq!(lanes, Lanes::of(&zeroed), "round {round}");
        assert_eq!(stream_of(&PRINTED_PLAN, &zeroed), stream, "round {round}");
    }
}
