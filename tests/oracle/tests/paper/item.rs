//! One item from the front of a slice.

use crate::as_it_stands::{item, paper};
use crate::build::{check, measured, plan_bytes, refused, second_bytes, PRINTED_PLAN};
use oracle::item::{front, Item};
use oracle::second::Second;
use oracle::Plan;

#[test]
fn each_kind_with_its_length() {
    let plan = Plan {
        reference: 0x0012_3456,
        e1: 0x0001_0203,
        e2: 0x0004_0506,
        e3: 0x0007_0809,
        lower: 11,
        upper: [22, 33, 44],
    };
    assert_eq!(item(&plan_bytes(&plan)), Ok((Item::Plan(plan), 21)));
    let second = measured(0x1234, -2, 0x0001_5678, 0x0087_6543);
    assert_eq!(item(&second_bytes(&second)), Ok((Item::Second(second), 15)));
    let second = check(0x4321, -50_000, 0x0001_0001, 0x0000_00ff);
    assert_eq!(item(&second_bytes(&second)), Ok((Item::Second(second), 15)));
    assert_eq!(item(&[2]), Ok((Item::Second(Second::missing()), 1)));
}

#[test]
fn bytes_as_the_table_lays_them_out() {
    let bytes = [
        0x01, 0x0e, 0x10, 0xff, 0xff, 0xff, 0xfe, 0x00, 0x01, 0x02, 0x03, 0x00, 0x04, 0x05, 0x06,
    ];
    let second = measured(3_600, -2, 66_051, 263_430);
    assert_eq!(item(&bytes), Ok((Item::Second(second), 15)));
    let bytes = [
        0x10, 0x00, 0x00, 0x00, 0x07, 0x00, 0x03, 0x0d, 0x40, 0x00, 0x02, 0x22, 0xe0, 0x00, 0x02,
        0x71, 0x00, 25, 45, 40, 40,
    ];
    assert_eq!(item(&bytes), Ok((Item::Plan(PRINTED_PLAN), 21)));
}

#[test]
fn what_follows_the_item_is_not_looked_at() {
    let mut bytes = second_bytes(&measured(1, 2, 3, 4));
    bytes.extend([0xff; 40]);
    assert_eq!(item(&bytes), Ok((Item::Second(measured(1, 2, 3, 4)), 15)));
    assert_eq!(item(&[2, 0xff]), Ok((Item::Second(Second::missing()), 1)));
}

#[test]
fn an_empty_slice_is_7() {
    assert_eq!(item(&[]), refused(7, 0));
}

#[test]
fn other_kinds_are_8_however_long() {
    for kind in (0..=255u8).filter(|kind| ![0x10, 1, 2, 3].contains(kind)) {
        assert_eq!(item(&[kind]), refused(8, 0));
        assert_eq!(item(&[kind; 40]), refused(8, 0));
    }
}

#[test]
fn a_cut_body_is_7_before_5_and_3() {
    for bytes in [
        [0x10; 21].to_vec(),
        [0x01; 15].to_vec(),
        [0x03; 15].to_vec(),
    ] {
        for length in 1..bytes.len() {
            assert_eq!(item(&bytes[..length]), refused(7, 0), "{length}");
        }
    }
    assert_eq!(item(&[0x10; 21]), refused(5, 0));
    assert_eq!(item(&[0x01; 15]), refused(3, 0));
    assert_eq!(item(&[0x03; 15]), refused(3, 0));
}

#[test]
fn each_value_out_of_range_is_3_at_0() {
    for second in [measured, check] {
        let bad = [
            second(25_001, 0, 0, 0),
            second(0, -50_001, 0, 0),
            second(0, 500_001, 0, 0),
            second(0, 0, 100_001, 0),
            second(0, 0, 0, 10_000_001),
        ];
        for bad in bad {
            assert_eq!(item(&second_bytes(&bad)), refused(3, 0));
        }
    }
}

#[test]
fn altitude_in_twos_complement() {
    for altitude in [i32::MIN, i32::MIN + 1, -1, 0, 1 << 30, i32::MAX] {
        let second = measured(0, altitude, 0, 0);
        let bytes = second_bytes(&second);
        let front = front(paper(), &bytes);
        assert_eq!((front.item, front.length), (Some(Item::Second(second)), 15));
    }
}
