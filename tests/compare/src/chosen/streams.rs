//! Items and streams: every kind byte, the ends of every range, cuts, order, and what is printed.

use oracle::second::Second;
use oracle::Plan;

use super::Chosen;
use crate::case::Case;
use crate::streams::of_trip;

pub const PLAN: Plan = Plan {
    reference: 70_000,
    e1: 200_000,
    e2: 140_000,
    e3: 160_000,
    lower: 25,
    upper: [45, 40, 35],
};

pub(super) fn second(state: u8, speed: u16, altitude: i32, co2: u32, nox: u32) -> Second {
    Second {
        state,
        speed,
        altitude,
        co2,
        nox,
    }
}

/// A second of each state, each value its own.
fn mixed() -> Vec<Second> {
    vec![
        second(1, 3_600, -321, 70_001, 9_000_001),
        Second::missing(),
        second(3, 9_001, 1_234, 5, 7),
        second(1, 0, 0, 0, 0),
    ]
}

pub fn add(all: &mut Chosen) {
    items(all);
    ranges(all);
    streams(all);
    printed(all);
}

/// Every kind byte near a known one, with bytes behind it or none, and every cut of each item.
fn items(all: &mut Chosen) {
    let add = |all: &mut Chosen, bytes: &[u8]| all.add("item", Case::Item(bytes.to_vec()));
    add(all, &[]);
    for kind in (0..=5).chain([0x0f, 0x10, 0x11, 0x12, 0xff]) {
        add(all, &[kind]);
        let mut bytes = of_trip(&PLAN, &[]);
        bytes[0] = kind;
        bytes.push(9);
        add(all, &bytes);
    }
    for second in mixed() {
        let item = of_trip(&PLAN, &[second]).split_off(21);
        for end in [item.len() - 1, item.len()] {
            add(all, &item[..end]);
        }
    }
    let plan = of_trip(&PLAN, &[]);
    for end in [19, 20, 21] {
        add(all, &plan[..end]);
    }
}

/// Plans on both sides of every end of their ranges.
pub fn plans_at_ends() -> Vec<Plan> {
    let mut plans = Vec::new();
    let mut plan = |change: &dyn Fn(&mut Plan)| {
        let mut changed = PLAN;
        change(&mut changed);
        plans.push(changed);
    };
    for value in [0, 1, 2, 19_999_999, 20_000_000, 20_000_001] {
        plan(&|p| p.reference = value);
    }
    for value in [0, 1, 2, 1_999_999, 2_000_000, 2_000_001] {
        plan(&|p| p.e1 = value);
        plan(&|p| p.e2 = value);
        plan(&|p| p.e3 = value);
    }
    for value in [0, 1, 99, 100, 101, 255] {
        plan(&|p| p.lower = value);
        for class in 0..3 {
            plan(&|p| p.upper[class] = value);
        }
    }
    plans
}

/// Seconds of a state on both sides of every end of their ranges.
pub fn seconds_at_ends(state: u8) -> Vec<Second> {
    let mut seconds = Vec::new();
    let mut of = |speed, altitude, co2, nox| {
        seconds.push(second(state, speed, altitude, co2, nox));
    };
    for speed in [0, 1, 24_999, 25_000, 25_001, u16::MAX] {
        of(speed, 5, 5, 5);
    }
    for altitude in [
        -50_001,
        -50_000,
        -49_999,
        0,
        499_999,
        500_000,
        500_001,
        i32::MIN,
    ] {
        of(5, altitude, 5, 5);
    }
    for co2 in [0, 1, 99_999, 100_000, 100_001, u32::MAX] {
        of(5, 5, co2, 5);
    }
    for nox in [0, 1, 9_999_999, 10_000_000, 10_000_001, u32::MAX] {
        of(5, 5, 5, nox);
    }
    seconds
}

/// Both sides of every end of a plan's and a second's ranges.
fn ranges(all: &mut Chosen) {
    for plan in plans_at_ends() {
        all.add("range of a plan", Case::Item(of_trip(&plan, &[])));
    }
    for state in [1, 3] {
        for second in seconds_at_ends(state) {
            let bytes = of_trip(&PLAN, &[second]).split_off(21);
            all.add("range of a second", Case::Item(bytes));
        }
    }
}

/// Streams with one or two faults, lanes of every length, and the longest one.
fn streams(all: &mut Chosen) {
    let mut count = 0;
    let mut read = |bytes: &[u8], places: [usize; 5]| {
        let bytes = bytes.to_vec();
        count += 1;
        let blocks = Case::Blocks {
            bytes: bytes.clone(),
            length: [1, 4, 7, 13, 20, 40][count % 6],
            places,
        };
        all.add("stream", Case::Read { bytes, places });
        all.add("stream in blocks", blocks);
    };
    let whole = of_trip(&PLAN, &mixed());
    let plan = &whole[..21];
    let seconds = &whole[21..];
    let wild_plan = of_trip(&Plan { lower: 101, ..PLAN }, &[]);
    let wild = of_trip(&PLAN, &[second(1, 25_001, 0, 0, 0)]).split_off(21);
    for end in [0, 1, 20, 21, 22, 35, 36, 37, 51, 52, 66, 67] {
        read(&whole[..end.min(whole.len())], [6; 5]);
    }
    for lane in 0..5 {
        for places in [0, 3, 4, 5] {
            let mut lengths = [6; 5];
            lengths[lane] = places;
            read(&whole, lengths);
        }
    }
    let joined = |parts: &[&[u8]]| parts.concat();
    let places = [6; 5];
    read(seconds, places);
    read(&seconds[..10], places);
    read(&joined(&[seconds, plan]), places);
    read(&joined(&[plan, plan]), places);
    read(&joined(&[plan, &plan[..20]]), places);
    read(&joined(&[plan, seconds, plan, seconds]), places);
    read(&joined(&[plan, &wild_plan]), places);
    read(&wild_plan, places);
    read(&joined(&[&wild_plan, seconds]), places);
    read(&wild, places);
    read(&joined(&[plan, &wild]), places);
    read(&joined(&[plan, &wild]), [0; 5]);
    read(
        &joined(&[plan, seconds, &wild, seconds, &wild, seconds]),
        [9; 5],
    );
    read(&joined(&[plan, &wild[..14]]), [0; 5]);
    read(&joined(&[plan, &wild[..14]]), places);
    read(&joined(&[plan, &[2]]), [0; 5]);
    read(&[2], [0; 5]);
    for kind in [0x00, 0x04, 0x0f, 0x11, 0xff] {
        read(&[kind], places);
        read(&joined(&[plan, seconds, &[kind], seconds]), places);
    }
    let full = joined(&[plan, &[2; 8_192]]);
    let places = [8_200; 5];
    read(&full, places);
    read(&joined(&[&full, &[2]]), places);
    read(&joined(&[&full, &[2]]), [8_192; 5]);
    read(&joined(&[&full, &wild]), places);
    read(&joined(&[&full, &wild[..14]]), places);
    read(&joined(&[&full, plan]), places);
    read(&joined(&[&full, &[9]]), places);
    read(&full[..8_212], places);
}

/// What the program prints: judged trips and refusals of stream and trip.
fn printed(all: &mut Chosen) {
    let mut print = |bytes: Vec<u8>| all.add("program", Case::Printed(bytes));
    let plan = Plan {
        reference: 7,
        upper: [45, 40, 40],
        ..PLAN
    };
    let printed_case = [3, 0, 4, 2, 5].map(|co2| second(1, 3_600, 0, co2, 0));
    print(of_trip(&plan, &printed_case));
    print(of_trip(&plan, &mixed()));
    print(of_trip(&plan, &[]));
    print(of_trip(&plan, &[Second::missing(), Second::missing()]));
    print(Vec::new());
    print(of_trip(&plan, &printed_case)[..95].to_vec());
    print(of_trip(&plan, &[second(1, 0, 0, 100_001, 0)]));
    print(of_trip(&Plan { e2: 0, ..plan }, &printed_case));
    // Windows of every class and of none, inside and outside; each figure of the lines its own.
    let speeds = [
        4_000u16, 4_400, 7_000, 7_900, 11_000, 14_000, 14_600, 16_000,
    ];
    let mut seconds: Vec<Second> = Vec::new();
    for (index, &speed) in speeds.iter().enumerate() {
        for k in 0..=index as u32 {
            seconds.push(second(1, speed, 0, 4 + 3 * k, 1));
        }
        seconds.push(Second::missing());
        seconds.push(second(3, speed, 0, 9, 1));
    }
    print(of_trip(&plan, &seconds));
    let wide = Plan {
        lower: 100,
        upper: [100, 100, 100],
        e1: 2_000,
        e2: 1_500,
        e3: 1_500,
        ..plan
    };
    print(of_trip(&wide, &seconds));
}
