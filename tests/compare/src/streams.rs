//! Streams to read: whole ones, and what a logger that loses power, doubles or mixes up makes of
//! them.

use oracle::second::Second;
use oracle::Plan;

use crate::random::Random;

pub const PLAN: u8 = 0x10;
pub const MEASURED: u8 = 0x01;
pub const MISSING: u8 = 0x02;
pub const CHECK: u8 = 0x03;

/// A plan's body; each number is in range unless `wild` says otherwise.
pub fn plan(random: &mut Random, wild: u64) -> Vec<u8> {
    let mut bytes = vec![PLAN];
    for most in [20_000_000, 2_000_000, 2_000_000, 2_000_000] {
        let value = edge(random, 1, most, wild);
        bytes.extend((value as u32).to_be_bytes());
    }
    for _ in 0..4 {
        bytes.push(edge(random, 0, 100, wild) as u8);
    }
    bytes
}

/// A second of a kind; each value is in range unless `wild` says otherwise.
pub fn second(random: &mut Random, kind: u8, wild: u64) -> Vec<u8> {
    let mut bytes = vec![kind];
    if kind == MISSING {
        return bytes;
    }
    bytes.extend((edge(random, 0, 25_000, wild) as u16).to_be_bytes());
    bytes.extend((edge(random, -50_000, 500_000, wild) as i32).to_be_bytes());
    bytes.extend((edge(random, 0, 100_000, wild) as u32).to_be_bytes());
    bytes.extend((edge(random, 0, 10_000_000, wild) as u32).to_be_bytes());
    bytes
}

/// A number from `least` to `most`, often an end; one in `wild` steps just outside (0: never).
fn edge(random: &mut Random, least: i64, most: i64, wild: u64) -> i64 {
    if wild > 0 && random.below(wild) == 0 {
        return if random.below(2) == 0 {
            most + 1
        } else {
            least - 1
        };
    }
    match random.below(6) {
        0 => least,
        1 => most,
        _ => least + random.below((most - least + 1) as u64) as i64,
    }
}

/// A kind of second, mostly measured.
pub fn kind(random: &mut Random) -> u8 {
    match random.below(8) {
        0 => MISSING,
        1 => CHECK,
        _ => MEASURED,
    }
}

/// A readable stream of a plan and some seconds.
pub fn whole(random: &mut Random, seconds: usize) -> Vec<u8> {
    let mut bytes = plan(random, 0);
    for _ in 0..seconds {
        let kind = kind(random);
        bytes.extend(second(random, kind, 0));
    }
    bytes
}

/// The stream that a logger writes of a trip. A missing second has no values.
pub fn of_trip(plan: &Plan, seconds: &[Second]) -> Vec<u8> {
    let mut bytes = vec![PLAN];
    for number in [plan.reference, plan.e1, plan.e2, plan.e3] {
        bytes.extend(number.to_be_bytes());
    }
    bytes.push(plan.lower);
    bytes.extend(plan.upper);
    for second in seconds {
        // A second's kind is its state.
        bytes.push(second.state);
        if second.state != MISSING {
            bytes.extend(second.speed.to_be_bytes());
            bytes.extend(second.altitude.to_be_bytes());
            bytes.extend(second.co2.to_be_bytes());
            bytes.extend(second.nox.to_be_bytes());
        }
    }
    bytes
}

/// Items in any order, some of them out of range, some of unknown kind.
pub fn any_items(random: &mut Random, items: usize) -> Vec<u8> {
    let mut bytes = if random.below(4) > 0 {
        plan(random, 40)
    } else {
        Vec::new()
    };
    for _ in 0..items {
        match random.below(30) {
            0 => bytes.extend(plan(random, 8)),
            1 => bytes.push(random.bits() as u8),
            _ => {
                let kind = kind(random);
                bytes.extend(second(random, kind, 60));
            }
        }
    }
    bytes
}

/// One fault in a stream: a byte changed, a cut, a part lost or doubled, another stream spliced in.
pub fn damaged(random: &mut Random, bytes: &mut Vec<u8>, other: &[u8]) {
    let at = random.below(bytes.len() as u64 + 1) as usize;
    let end = (at + random.below(40) as usize).min(bytes.len());
    match random.below(6) {
        0 | 1 if at < bytes.len() => bytes[at] = random.bits() as u8,
        2 => bytes.truncate(at),
        3 => {
            bytes.drain(at..end);
        }
        4 => {
            let part = bytes[at..end].to_vec();
            bytes.splice(at..at, part);
        }
        _ => {
            let from = random.below(other.len() as u64 + 1) as usize;
            bytes.truncate(at);
            bytes.extend(&other[from..]);
        }
    }
}
