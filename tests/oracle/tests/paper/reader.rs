//! A stream in blocks: where its reading stands, and which readers a stream leads to.

use crate::as_it_stands::paper;
use crate::build::{check, measured, plan_bytes, second_bytes, Lanes, PRINTED_PLAN};
use crate::random::Random;
use oracle::reader::{leading_to, Held, Reader, SoFar};
use oracle::stream::StreamAnswer;
use oracle::{Plan, Refusal};

/// Places for more seconds than a trip has.
const AMPLE: usize = 8_200;

/// Lanes of so many places, zeros in them.
fn zeros(places: usize) -> Lanes {
    Lanes {
        states: vec![0; places],
        speeds: vec![0; places],
        altitudes: vec![0; places],
        co2: vec![0; places],
        nox: vec![0; places],
    }
}

/// Where the reading of these bytes stands, for ample lanes.
fn stands(bytes: &[u8]) -> Reader {
    SoFar::of(paper(), bytes.to_vec(), AMPLE).reader()
}

fn leads(reader: &Reader) -> bool {
    leading_to(paper(), reader).is_some()
}

/// The plan of the printed case and some bytes behind it.
fn after_plan(bytes: &[u8]) -> Vec<u8> {
    [&plan_bytes(&PRINTED_PLAN)[..], bytes].concat()
}

/// These bytes in the carry.
fn held(bytes: &[u8]) -> Held {
    let mut held = Held::default();
    held[..bytes.len()].copy_from_slice(bytes);
    held
}

/// A reader after the plan, at an offset.
fn planned(seconds: usize, at: usize) -> Reader {
    Reader {
        plan: PRINTED_PLAN,
        seconds,
        at,
        ..Reader::default()
    }
}

#[test]
fn before_the_first_byte_a_reader_is_all_zero() {
    assert_eq!(stands(&[]), Reader::default());
    assert!(leads(&Reader::default()));
}

#[test]
fn the_front_of_an_item_is_held() {
    let cut = Reader {
        count: 3,
        held: held(&[0x10, 0, 0]),
        ..Reader::default()
    };
    assert_eq!(stands(&[0x10, 0, 0]), cut);
    let second = second_bytes(&check(1, 2, 3, 4));
    let behind_one = Reader {
        count: 14,
        held: held(&second[..14]),
        ..planned(1, 22)
    };
    let stream = after_plan(&[&[2], &second[..14]].concat());
    assert_eq!(stands(&stream), behind_one);
    assert!(leads(&cut) && leads(&behind_one));
}

#[test]
fn the_offset_is_that_of_the_items_read() {
    assert_eq!(stands(&after_plan(&[])), planned(0, 21));
    assert_eq!(stands(&after_plan(&[2, 2])), planned(2, 23));
    let second = second_bytes(&measured(1, 2, 3, 4));
    assert_eq!(stands(&after_plan(&second)), planned(1, 36));
    // Two seconds: both missing, one with values, both.
    for at in 0..100 {
        let two = planned(2, at);
        assert_eq!(leads(&two), [23, 37, 51].contains(&at), "{at}");
    }
}

#[test]
fn a_bad_item_settles_a_reader_and_nothing_is_held() {
    let plan = plan_bytes(&PRINTED_PLAN);
    let bad_plan = plan_bytes(&Plan::default());
    let bad_second = second_bytes(&measured(25_001, 0, 0, 0));
    let settled = |refusal, reader: Reader| Reader { refusal, ..reader };
    let start = Reader::default();
    for (stream, reader) in [
        (vec![0x55, 0x10], settled(8, start)),
        (vec![2, 0x10], settled(11, start)),
        (bad_plan, settled(5, start)),
        (after_plan(&[2, 0x55]), settled(8, planned(1, 22))),
        (after_plan(&plan), settled(11, planned(0, 21))),
        (after_plan(&bad_second), settled(3, planned(0, 21))),
    ] {
        assert_eq!(stands(&stream), reader);
        assert!(leads(&reader));
    }
}

#[test]
fn a_second_without_a_place_settles_a_reader_below_8_192_seconds() {
    let stream = after_plan(&[2, 2]);
    let reader = SoFar::of(paper(), stream, 1).reader();
    assert_eq!(reader.refusal, 6);
    assert_eq!((reader.seconds, reader.at), (1, 22));
    assert!(leads(&reader));
    let full = planned(8_192, 21 + 8_192);
    let with = |refusal| Reader { refusal, ..full };
    assert_eq!(stands(&after_plan(&[2; 8_193])), with(2));
    assert!(leads(&with(0)) && leads(&with(2)) && !leads(&with(6)));
    let one_less = planned(8_191, 21 + 8_191);
    let with = |refusal| Reader {
        refusal,
        ..one_less
    };
    assert!(leads(&with(6)) && !leads(&with(2)));
    assert!(!leads(&planned(8_193, 21 + 8_193)));
    assert!(!leads(&planned(usize::MAX, 20)));
}

/// The numbers with which a stream leads to a reader that else is this one.
fn numbers(reader: &Reader) -> Vec<u8> {
    let with = |refusal: u8| Reader { refusal, ..*reader };
    let leading = |number: &u8| leads(&with(*number));
    (0..=u8::MAX).filter(leading).collect()
}

#[test]
fn only_six_numbers_settle_a_reader() {
    assert_eq!(numbers(&Reader::default()), [0, 5, 8, 11]);
    assert_eq!(numbers(&planned(1, 22)), [0, 3, 6, 8, 11]);
    assert_eq!(numbers(&planned(8_192, 8_213)), [0, 2, 3, 8, 11]);
}

#[test]
fn no_stream_leads_to_a_whole_item_held_or_to_an_unknown_kind() {
    let holding = |bytes: &[u8]| Reader {
        count: bytes.len(),
        held: held(bytes),
        ..planned(0, 21)
    };
    let second = second_bytes(&measured(0, 0, 0, 0));
    assert!(leads(&holding(&second[..14])));
    assert!(!leads(&holding(&second)));
    assert!(!leads(&holding(&[2])));
    assert!(!leads(&holding(&[0x55])));
    assert!(leads(&holding(&plan_bytes(&PRINTED_PLAN)[..20])));
    assert!(!leads(&holding(&plan_bytes(&PRINTED_PLAN))));
    for count in [0, 13, 15, 22, usize::MAX] {
        let reader = Reader {
            count,
            ..holding(&second[..14])
        };
        // The last byte of the fourteen is zero, so thirteen hold as much.
        assert_eq!(leads(&reader), count == 13, "{count}");
    }
}

#[test]
fn no_stream_leads_to_a_byte_behind_those_held_or_to_a_plan_out_of_range() {
    let mut reader = planned(0, 21);
    reader.held[20] = 1;
    assert!(!leads(&reader));
    let mut reader = planned(0, 21);
    reader.plan.reference = 20_000_001;
    assert!(!leads(&reader));
    // A plan before it was read; none behind seconds; seconds before any.
    assert!(!leads(&planned(0, 0)));
    let without_plan = |reader: Reader| Reader {
        plan: Plan::default(),
        ..reader
    };
    assert!(!leads(&without_plan(planned(0, 21))));
    assert!(!leads(&without_plan(planned(1, 22))));
    assert!(!leads(&without_plan(planned(1, 1))));
}

#[test]
fn fed_block_by_block_a_stream_ends_as_a_whole() {
    let mut random = Random::seeded(9);
    let second = second_bytes(&check(5, -6, 7, 8));
    let stream = after_plan(&[&second[..], &[2], &second, &[0x55], &second].concat());
    for _ in 0..2_000 {
        let length = random.between(0, stream.len() as i64) as usize;
        let whole = SoFar::of(paper(), stream[..length].to_vec(), 4);
        let mut so_far = SoFar::of(paper(), Vec::new(), 0);
        let mut lanes = zeros(4);
        let mut rest = &stream[..length];
        while !rest.is_empty() {
            let cut = random.between(0, rest.len() as i64) as usize;
            so_far = so_far.fed(paper(), &rest[..cut], &mut lanes.lent());
            rest = &rest[cut..];
        }
        assert_eq!(so_far.reader(), whole.reader());
        assert_eq!(so_far.end(), whole.end());
        let written = lanes.states.iter().filter(|&&state| state > 0).count();
        assert_eq!(written, whole.reader().seconds);
    }
}

#[test]
fn a_reader_is_fed_as_the_stream_that_leads_to_it() {
    // One second with values was read, and the front of another is held.
    let front = [1, 0x0e];
    let reader = Reader {
        count: 2,
        held: held(&front),
        ..planned(1, 36)
    };
    let read = leading_to(paper(), &reader).expect("a stream leads to it");
    assert_eq!(read.reader(), reader);
    assert_eq!(read.end(), Err(Refusal::at(7, 36)));
    let mut lanes = zeros(3);
    let rest = [&[0x10][..], &[0; 12], &[2]].concat();
    let fed = read.fed(paper(), &rest, &mut lanes.lent());
    assert_eq!(fed.reader(), planned(3, 52));
    let accepted = StreamAnswer {
        plan: PRINTED_PLAN,
        seconds: 3,
    };
    assert_eq!(fed.end(), Ok(accepted));
    assert_eq!(lanes.states, [0, 1, 2]);
    assert_eq!(lanes.speeds, [0, 3_600, 0]);
    // Lanes that are shorter than what was read before have no place for more.
    let fed = read.fed(paper(), &rest, &mut zeros(0).lent());
    let settled = Reader {
        refusal: 6,
        ..planned(1, 36)
    };
    assert_eq!(fed.reader(), settled);
    // More blocks change nothing then, whatever the lanes.
    let again = fed.fed(paper(), &rest, &mut zeros(9).lent());
    assert_eq!(again.reader(), settled);
}
