//! The trip stream: one item, and a whole stream into lanes.

use oracle::stream::Reading;

use crate::account::{Account, Comparison};
use crate::case::Case;
use crate::lanes::{answer_by_paper, Lanes};
use crate::random::Random;
use crate::streams;

/// More seconds than one call takes.
const TOO_MANY: usize = 8_193;

/// Takes a stream, with the lengths of the lanes that it is read into.
pub type Take<'a> = &'a mut dyn FnMut(&[u8], [usize; 5]);

/// Each comparison of streams, and how its streams are made from a seed.
pub const STREAMS: [(&str, fn(u64, Take)); 5] = [
    ("stream, damaged, spliced and mixed up", damaged),
    (
        "stream, every change of one byte of a short one",
        every_byte,
    ),
    ("stream, two faults in one item and in two", two_faults),
    ("stream, lanes of unequal and short lengths", short_lanes),
    ("stream, more seconds than a call takes", too_many),
];

pub fn compare(account: &mut Account) {
    let seed = account.seed;
    account.compare("item, any bytes", |c| any_bytes(c, seed));
    for (name, streams) in STREAMS {
        account.compare(name, |c| {
            streams(seed, &mut |bytes, places| read(c, bytes, places))
        });
    }
    account.compare("stream, power lost at each byte of three full ones", |c| {
        every_prefix(c, seed)
    });
}

/// One item on both sides.
fn item(comparison: &mut Comparison, bytes: &[u8]) {
    comparison.case(&Case::Item(bytes.to_vec()));
}

/// A whole stream on both sides: the answer and every place of every lane.
fn read(comparison: &mut Comparison, bytes: &[u8], places: [usize; 5]) {
    let bytes = bytes.to_vec();
    comparison.case(&Case::Read { bytes, places });
}

fn any_bytes(comparison: &mut Comparison, seed: u64) {
    let mut random = Random::new(seed ^ 21);
    item(comparison, &[]);
    for _ in 0..150_000 {
        let kind = match random.below(6) {
            0 => streams::PLAN,
            5 => random.bits() as u8,
            _ => streams::kind(&mut random),
        };
        let mut bytes = if kind == streams::PLAN {
            streams::plan(&mut random, 12)
        } else {
            streams::second(&mut random, kind, 8)
        };
        match random.below(4) {
            0 => bytes.truncate(random.below(bytes.len() as u64 + 1) as usize),
            1 => bytes.extend((0..random.below(9)).map(|_| random.bits() as u8)),
            2 => {
                let at = random.below(bytes.len() as u64) as usize;
                bytes[at] = random.bits() as u8;
            }
            _ => {}
        }
        item(comparison, &bytes);
    }
}

fn damaged(seed: u64, take: Take) {
    let mut random = Random::new(seed ^ 22);
    let mut other = streams::whole(&mut random, 5);
    for _ in 0..200_000 {
        let seconds = random.below(12) as usize;
        let mut bytes = match random.below(3) {
            0 => streams::any_items(&mut random, seconds),
            _ => streams::whole(&mut random, seconds),
        };
        for _ in 0..random.below(3) {
            streams::damaged(&mut random, &mut bytes, &other);
        }
        take(&bytes, [14; 5]);
        if random.below(16) == 0 {
            other = bytes;
        }
    }
}

fn every_byte(seed: u64, take: Take) {
    let mut random = Random::new(seed ^ 23);
    let mut bytes = streams::plan(&mut random, 0);
    for kind in [streams::MEASURED, streams::MISSING, streams::CHECK] {
        bytes.extend(streams::second(&mut random, kind, 0));
    }
    for at in 0..bytes.len() {
        let kept = bytes[at];
        for value in 0..=u8::MAX {
            bytes[at] = value;
            take(&bytes, [3; 5]);
        }
        bytes[at] = kept;
    }
}

/// Each pair of faults, in one item and in two, decides the order.
fn two_faults(seed: u64, take: Take) {
    let mut random = Random::new(seed ^ 24);
    for _ in 0..30_000 {
        let mut bytes = Vec::new();
        if random.below(5) > 0 {
            bytes.extend(streams::plan(&mut random, 5));
        }
        for _ in 0..random.below(4) {
            match random.below(5) {
                0 => bytes.extend(streams::plan(&mut random, 2)),
                1 => bytes.push([0x00, 0x04, 0x11, 0xff][random.below(4) as usize]),
                _ => {
                    let kind = streams::kind(&mut random);
                    bytes.extend(streams::second(&mut random, kind, 3));
                }
            }
        }
        bytes.truncate(
            bytes
                .len()
                .saturating_sub(random.below(3) as usize * random.below(9) as usize),
        );
        take(&bytes, [random.below(4) as usize; 5]);
    }
}

fn short_lanes(seed: u64, take: Take) {
    let mut random = Random::new(seed ^ 25);
    for _ in 0..30_000 {
        let seconds = random.below(6) as usize;
        let bytes = streams::whole(&mut random, seconds);
        let lengths = [0; 5].map(|_: usize| random.below(8) as usize);
        take(&bytes, lengths);
    }
}

/// Three streams of as many seconds as a call takes.
pub fn full(seed: u64) -> [Vec<u8>; 3] {
    let mut random = Random::new(seed ^ 26);
    [0; 3].map(|_| streams::whole(&mut random, TOO_MANY - 1))
}

/// Full streams, each cut at every byte.
fn every_prefix(comparison: &mut Comparison, seed: u64) {
    for bytes in full(seed) {
        read(comparison, &bytes, [TOO_MANY - 1; 5]);
        let mut ours = Lanes::guarded([TOO_MANY - 1; 5]);
        let untouched = ours.clone();
        // What stands before a cut was read for the cut before it.
        let mut reading = Reading::default();
        for end in 0..bytes.len() {
            prefix(
                comparison,
                &bytes[..end],
                &mut ours,
                &untouched,
                &mut reading,
            );
        }
    }
}

/// A cut stream: refused with nothing written, or readable because the cut lies between items.
fn prefix(
    comparison: &mut Comparison,
    bytes: &[u8],
    ours: &mut Lanes,
    untouched: &Lanes,
    reading: &mut Reading,
) {
    let got = library::read(bytes, ours.lent());
    let wanted = match reading.read_on(&comparison.rules, bytes, TOO_MANY - 1) {
        Some(refusal) => Err(refusal),
        None => Ok((reading.plan.expect("a plan"), reading.seconds.len())),
    };
    let wanted = answer_by_paper(wanted);
    let written_only_if_read = got.refusal == 0 || *ours == *untouched;
    if got.refusal == 0 {
        ours.clone_from(untouched);
    }
    comparison.same((got, written_only_if_read), (wanted, true), || {
        format!("the first {} bytes of a full stream", bytes.len())
    });
}

fn too_many(seed: u64, take: Take) {
    let mut random = Random::new(seed ^ 27);
    for (last, places) in [
        (0, TOO_MANY),
        (2, TOO_MANY),
        (1, TOO_MANY),
        (0, TOO_MANY - 1),
        (2, 100),
    ] {
        let mut bytes = streams::whole(&mut random, TOO_MANY - 1);
        bytes.extend(streams::second(&mut random, streams::MEASURED, last));
        take(&bytes, [places; 5]);
        bytes.pop();
        take(&bytes, [places; 5]);
    }
}
