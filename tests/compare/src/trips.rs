//! Trips to judge: small ones of any character, and realistic ones near the borders of the rules.

use oracle::second::Second;
use oracle::Plan;

use crate::lanes::Lanes;
use crate::random::Random;

impl Lanes {
    /// Puts one state or value out of its range.
    pub fn spoil(&mut self, random: &mut Random) {
        let at = random.below(self.states.len() as u64) as usize;
        if random.below(3) > 0 {
            self.states[at] = MEASURED;
        }
        match random.below(5) {
            0 => self.states[at] = [0, 4, 255][random.below(3) as usize],
            1 => self.speeds[at] = 25_001,
            2 => self.altitudes[at] = [-50_001, 500_001, i32::MIN][random.below(3) as usize],
            3 => self.co2[at] = 100_001,
            _ => self.nox[at] = 10_000_001,
        }
    }

    /// Takes the last place off one or more lanes.
    pub fn shorten(&mut self, random: &mut Random) {
        match random.below(5) {
            0 => drop(self.states.pop()),
            1 => drop(self.speeds.pop()),
            2 => drop(self.altitudes.pop()),
            3 => drop(self.co2.pop()),
            _ => drop(self.nox.pop()),
        }
    }
}

const MEASURED: u8 = 1;
const MISSING: u8 = 2;
const CHECK: u8 = 3;

/// A missing second holds what a careless reader would trip over, or zeros as the stream leaves
/// them.
fn missing(random: &mut Random) -> Second {
    let wild = random.below(2) == 0;
    Second {
        state: MISSING,
        speed: if wild { 65_535 } else { 0 },
        altitude: if wild { i32::MIN } else { 0 },
        co2: if wild { u32::MAX } else { 0 },
        nox: if wild { u32::MAX } else { 0 },
    }
}

/// A plan in range, of any character; now and then one whose curve runs below zero.
pub fn plan(random: &mut Random) -> Plan {
    let mut curve = || match random.below(4) {
        0 => 1,
        1 => 2_000_000,
        _ => 1 + random.below(400_000) as u32,
    };
    let (e1, e2, e3) = (curve(), curve(), curve());
    let mut tolerance = || [0, 25, 50, 100][random.below(4) as usize];
    let (lower, upper) = (tolerance(), [tolerance(), tolerance(), tolerance()]);
    let reference = match random.below(3) {
        0 => 1 + random.below(50) as u32,
        1 => 1 + random.below(20_000) as u32,
        _ => 1 + random.below(20_000_000) as u32,
    };
    Plan {
        reference,
        e1,
        e2,
        e3,
        lower,
        upper,
    }
}

/// A few seconds of any character: all speeds, all altitudes, any state.
pub fn small(random: &mut Random, n: usize) -> Vec<Second> {
    let fast = [200, 6_001, 9_001, 25_000][random.below(4) as usize];
    let steep = [1, 300, 5_000, 275_000][random.below(4) as usize];
    let heavy = [1, 10, 3_000, 100_000][random.below(4) as usize];
    let holes = [0, 1, 4][random.below(3) as usize];
    (0..n)
        .map(|_| {
            if random.below(10) < holes {
                return missing(random);
            }
            Second {
                state: if random.below(8) == 0 {
                    CHECK
                } else {
                    MEASURED
                },
                speed: random.below(fast + 1) as u16,
                altitude: (225_000 + random.below(2 * steep + 1) as i64 - steep as i64) as i32,
                co2: random.below(heavy + 1) as u32,
                nox: random.below(10_000_001) as u32,
            }
        })
        .collect()
}

/// A drive of urban, rural and motorway parts that breaks no rule, or hardly one.
pub fn realistic(random: &mut Random) -> (Plan, Vec<Second>) {
    let speeds = drive(random);
    let rate = 150_000.0 * (0.9 + 0.3 * random.unit());
    let hill = [0.0, 20.0, 60.0, 110.0][random.below(4) as usize];
    let holes = random.below(2) * random.below(70);
    let mut seconds: Vec<Second> = speeds
        .iter()
        .enumerate()
        .map(|(i, &speed)| {
            let noise = 0.8 + 0.4 * random.unit();
            Second {
                state: if random.below(900) == 0 {
                    CHECK
                } else {
                    MEASURED
                },
                speed,
                altitude: (20_000.0 + hill * 100.0 * (i as f64 / 700.0).sin()) as i32,
                co2: (f64::from(speed) * rate / 360_000.0 * noise) as u32,
                nox: random.below(5_000) as u32,
            }
        })
        .collect();
    for _ in 0..holes {
        let at = random.below(seconds.len() as u64) as usize;
        seconds[at] = missing(random);
    }
    let plan = Plan {
        reference: 900_000 + random.below(300_000) as u32,
        e1: 150_000,
        e2: 148_000 + random.below(4_000) as u32,
        e3: 152_000,
        lower: 25,
        upper: [25, 25, 25],
    };
    (plan, seconds)
}

/// Speeds, 0.01 km/h: cycles of standing, speeding up and slowing down, part by part.
fn drive(random: &mut Random) -> Vec<u16> {
    let mut speeds = Vec::new();
    let urban = 60 + random.below(14);
    for _ in 0..urban {
        speeds.extend(std::iter::repeat(0).take(3 + random.below(5) as usize));
        cycle(random, &mut speeds, 0, 25, 200);
    }
    for _ in 0..26 + random.below(8) {
        cycle(random, &mut speeds, 6_500, 20, 100);
    }
    for _ in 0..5 + random.below(3) {
        cycle(random, &mut speeds, 10_000, 60, 50);
    }
    if random.below(10) == 0 {
        speeds.extend([14_600, 15_400, 16_050]);
    }
    speeds
}

fn cycle(random: &mut Random, speeds: &mut Vec<u16>, from: u64, steps: u64, step: u64) {
    for k in (0..steps).chain((1..=steps).rev()) {
        let wobble = if from + k == 0 { 0 } else { random.below(41) };
        speeds.push((from + k * step + wobble) as u16);
    }
}

/// Changes a trip or its plan so that some reason comes or goes.
pub fn bend(random: &mut Random, mut plan: Plan, seconds: &mut Vec<Second>) -> Plan {
    let at = random.below(seconds.len() as u64 - 200) as usize;
    match random.below(13) {
        0 => seconds.truncate(5_399),
        1 => seconds[at..at + 31].fill(missing(random)),
        2 => seconds.retain(|s| s.speed <= 9_000),
        3 => seconds.retain(|s| s.speed > 6_000 || s.speed < 300),
        4 => seconds.retain(|s| s.speed > 0),
        5 => seconds
            .iter_mut()
            .filter(|s| s.speed > 10_000)
            .for_each(|s| s.speed = 9_990),
        6 => seconds[at].speed = 16_001,
        7 => seconds.last_mut().expect("a trip").altitude += 11_000,
        8 => seconds.iter_mut().for_each(|s| s.altitude += 115_000),
        9 => (0..seconds.len()).for_each(|i| seconds[i].altitude += 80 * (i as i32 % 2)),
        10 => seconds
            .iter_mut()
            .filter(|s| s.speed > 9_000)
            .for_each(|s| s.speed = 11_000),
        11 => seconds
            .iter_mut()
            .for_each(|s| s.speed = s.speed / 1_600 * 1_600),
        _ => plan.reference = 20_000_000,
    }
    if random.below(4) == 0 {
        plan.e1 = 60_000;
    }
    plan
}

fn measured(speed: u16, altitude: i32, co2: u32) -> Second {
    Second {
        state: MEASURED,
        speed,
        altitude,
        co2,
        nox: 0,
    }
}

/// A lane of seconds all alike, or alternating between two extremes.
pub fn uniform(n: usize, character: usize) -> Vec<Second> {
    let second = |i: usize| match character {
        0 => measured(25_000, 500_000, 100_000),
        1 => measured(0, -50_000, 0),
        2 => Second {
            state: CHECK,
            ..measured(12_000, 10, 5)
        },
        3 => measured(if i % 2 == 0 { 0 } else { 25_000 }, 0, 100_000),
        4 => measured(100, if i % 2 == 0 { -50_000 } else { 500_000 }, 1),
        5 => measured(99 + (i % 2) as u16, 0, 100_000),
        6 => measured((i % 25_001) as u16, i as i32, (i % 1_000) as u32),
        7 => measured((25_000 - i % 25_001) as u16, 0, 50_000),
        8 => {
            if i % 3 == 1 {
                Second::missing()
            } else {
                measured(9_000, 0, 700)
            }
        }
        9 => measured(25_000, if i % 2 == 0 { -50_000 } else { 500_000 }, 100_000),
        10 => measured([6_000, 6_001, 9_000, 9_001][i % 4], 130_001, 3),
        _ => measured(if i % 4 < 2 { 0 } else { 24_999 }, 0, 1),
    };
    (0..n).map(second).collect()
}
