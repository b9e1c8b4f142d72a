//! Plans, seconds, lanes and streams for the tests.

use crate::random::Random;
use oracle::numbers::{CHECK, MEASURED};
use oracle::second::{Second, TripLanes};
use oracle::stream::StreamLanes;
use oracle::trip::LentLanes;
use oracle::{Plan, Refusal};

/// "plan 7; 200,000; 140,000; 160,000; 25, 45, 40, 40"
pub const PRINTED_PLAN: Plan = Plan {
    reference: 7,
    e1: 200_000,
    e2: 140_000,
    e3: 160_000,
    lower: 25,
    upper: [45, 40, 40],
};

pub fn refused<T>(number: u8, place: usize) -> Result<T, Refusal> {
    Err(Refusal { number, place })
}

pub fn measured(speed: u16, altitude: i32, co2: u32, nox: u32) -> Second {
    Second {
        state: MEASURED,
        speed,
        altitude,
        co2,
        nox,
    }
}

pub fn check(speed: u16, altitude: i32, co2: u32, nox: u32) -> Second {
    Second {
        state: CHECK,
        ..measured(speed, altitude, co2, nox)
    }
}

/// A missing second whose ignored values are what a careless reader would trip over.
pub fn missing_with_values() -> Second {
    Second {
        state: 2,
        speed: u16::MAX,
        altitude: i32::MIN,
        co2: u32::MAX,
        nox: u32::MAX,
    }
}

/// Seconds that are 3, each for a reason of its own.
pub fn bad_seconds() -> [Second; 8] {
    let wild = missing_with_values();
    [
        Second { state: 0, ..wild },
        Second {
            state: 4,
            ..measured(25_000, 500_000, 100_000, 10_000_000)
        },
        Second { state: 1, ..wild },
        measured(25_001, 0, 0, 0),
        check(0, -50_001, 0, 0),
        measured(0, 500_001, 0, 0),
        check(0, 0, 100_001, 0),
        measured(0, 0, 0, 10_000_001),
    ]
}

/// Measured seconds of these speeds, everything else 0.
pub fn of_speeds(speeds: &[u16]) -> Vec<Second> {
    speeds.iter().map(|&v| measured(v, 0, 0, 0)).collect()
}

/// Five lanes that own their places.
#[derive(Clone, Debug, PartialEq)]
pub struct Lanes {
    pub states: Vec<u8>,
    pub speeds: Vec<u16>,
    pub altitudes: Vec<i32>,
    pub co2: Vec<u32>,
    pub nox: Vec<u32>,
}

impl Lanes {
    pub fn of(seconds: &[Second]) -> Lanes {
        Lanes {
            states: seconds.iter().map(|s| s.state).collect(),
            speeds: seconds.iter().map(|s| s.speed).collect(),
            altitudes: seconds.iter().map(|s| s.altitude).collect(),
            co2: seconds.iter().map(|s| s.co2).collect(),
            nox: seconds.iter().map(|s| s.nox).collect(),
        }
    }

    /// Each lane in turn without its last place.
    pub fn each_shorter(&self) -> [Lanes; 5] {
        let shorten: [fn(&mut Lanes); 5] = [
            |lanes| lanes.states.truncate(lanes.states.len() - 1),
            |lanes| lanes.speeds.truncate(lanes.speeds.len() - 1),
            |lanes| lanes.altitudes.truncate(lanes.altitudes.len() - 1),
            |lanes| lanes.co2.truncate(lanes.co2.len() - 1),
            |lanes| lanes.nox.truncate(lanes.nox.len() - 1),
        ];
        shorten.map(|shorten| {
            let mut lanes = self.clone();
            shorten(&mut lanes);
            lanes
        })
    }

    /// Lent to the reader.
    pub fn lent(&mut self) -> StreamLanes<'_> {
        StreamLanes {
            states: &mut self.states,
            speeds: &mut self.speeds,
            altitudes: &mut self.altitudes,
            co2: &mut self.co2,
            nox: &mut self.nox,
        }
    }

    pub fn trip(&self) -> TripLanes<'_> {
        TripLanes {
            states: &self.states,
            speeds: &self.speeds,
            altitudes: &self.altitudes,
            co2: &self.co2,
            nox: &self.nox,
        }
    }
}

/// The four lent lanes of an evaluation, filled with values that no evaluation writes.
#[derive(Clone, Debug, PartialEq)]
pub struct Lent {
    pub kept_speeds: Vec<u16>,
    pub kept_co2: Vec<u32>,
    pub ends: Vec<u16>,
    pub ranks: Vec<u32>,
}

pub const GUARD_16: u16 = 65_432;
pub const GUARD_32: u32 = 4_000_000_000;

impl Lent {
    pub fn of(places: usize) -> Lent {
        Lent {
            kept_speeds: vec![GUARD_16; places],
            kept_co2: vec![GUARD_32; places],
            ends: vec![GUARD_16; places],
            ranks: vec![GUARD_32; places],
        }
    }

    pub fn lanes(&mut self) -> LentLanes<'_> {
        LentLanes {
            kept_speeds: &mut self.kept_speeds,
            kept_co2: &mut self.kept_co2,
            ends: &mut self.ends,
            ranks: &mut self.ranks,
        }
    }
}

pub fn plan_bytes(plan: &Plan) -> Vec<u8> {
    let mut bytes = vec![0x10];
    for number in [plan.reference, plan.e1, plan.e2, plan.e3] {
        bytes.extend(number.to_be_bytes());
    }
    bytes.push(plan.lower);
    bytes.extend(plan.upper);
    bytes
}

pub fn second_bytes(second: &Second) -> Vec<u8> {
    let mut bytes = vec![second.state];
    if second.state != 2 {
        bytes.extend(second.speed.to_be_bytes());
        bytes.extend(second.altitude.to_be_bytes());
        bytes.extend(second.co2.to_be_bytes());
        bytes.extend(second.nox.to_be_bytes());
    }
    bytes
}

pub fn stream_bytes(plan: &Plan, seconds: &[Second]) -> Vec<u8> {
    let mut bytes = plan_bytes(plan);
    for second in seconds {
        bytes.extend(second_bytes(second));
    }
    bytes
}

/// A second in range; missing seconds hold wild values where `wild`, else zeros.
pub fn random_second(random: &mut Random, wild: bool) -> Second {
    match random.between(0, 9) {
        0 if wild => missing_with_values(),
        0 => Second::missing(),
        kind => Second {
            state: if kind == 1 { CHECK } else { MEASURED },
            speed: random.between(0, 16_500) as u16,
            altitude: random.between(-2_000, 2_000) as i32,
            co2: random.between(0, 9_000) as u32,
            nox: random.between(0, 10_000_000) as u32,
        },
    }
}

/// Some such seconds, at most `most`.
pub fn random_seconds(random: &mut Random, most: i64, wild: bool) -> Vec<Second> {
    let count = random.between(0, most);
    (0..count).map(|_| random_second(random, wild)).collect()
}

/// The plan and the seconds of a trip without a reason against it.
pub fn valid_trip() -> (Plan, Vec<Second>) {
    let mut speeds: Vec<u16> = Vec::new();
    for _ in 0..66 {
        speeds.extend([0; 5]); // idling, then up and down between 0 and 50 km/h
        speeds.extend((0..25).map(|step| step * 200));
        speeds.extend((1..=25).rev().map(|step| step * 200));
    }
    for _ in 0..29 {
        speeds.extend((0..20).map(|step| 6_500 + step * 100));
        speeds.extend((1..=20).rev().map(|step| 6_500 + step * 100));
    }
    for _ in 0..6 {
        speeds.extend((0..60).map(|step| 10_000 + step * 50));
        speeds.extend((1..=60).rev().map(|step| 10_000 + step * 50));
    }
    let plan = Plan {
        reference: 1_000_000,
        e1: 150_000,
        e2: 150_000,
        e3: 150_000,
        lower: 25,
        upper: [25, 25, 25],
    };
    let second = |v: u16| measured(v, 0, u32::from(v) * 150_000 / 360_000, 1);
    (plan, speeds.into_iter().map(second).collect())
}
