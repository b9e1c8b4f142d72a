//! A stream that arrives in blocks, cut anywhere: the answer is that of the whole stream.

use library::{Fed, Reader};
use oracle::stream as paper;

use crate::account::{Account, Comparison};
use crate::case::fed_to_library;
use crate::lanes::{answer_by_paper, Lanes};
use crate::random::Random;
use crate::streams;

/// The longest block that the program reads.
const BLOCK: usize = 4_096;

const NEVER_MADE: u8 = 13;

pub fn compare(account: &mut Account) {
    let seed = account.seed;
    account.compare("blocks, damaged streams cut anywhere", |c| damaged(c, seed));
    account.compare("blocks, each pair of cuts of a short stream", |c| {
        two_cuts(c, seed)
    });
    account.compare("blocks, full streams in blocks of every size", |c| {
        full(c, seed)
    });
    account.compare("blocks, readers never made", |c| never_made(c, seed));
}

/// A stream in these blocks on both sides: the answer and every place of every lane.
fn fed<'a>(
    comparison: &mut Comparison,
    blocks: impl Iterator<Item = &'a [u8]> + Clone,
    lengths: [usize; 5],
) {
    let bytes: Vec<u8> = blocks.clone().flatten().copied().collect();
    let (mut ours, mut theirs) = (Lanes::guarded(lengths), Lanes::guarded(lengths));
    let got = fed_to_library(blocks.clone(), &mut ours);
    let wanted = paper::read_in_blocks(&comparison.rules, &bytes, &mut theirs.lent_on_paper());
    let wanted = answer_by_paper(wanted.map(|found| (found.plan, found.seconds)));
    comparison.same((got, ours == theirs), (wanted, true), || {
        let cuts: Vec<usize> = blocks.take(20).map(<[u8]>::len).collect();
        format!(
            "lanes {lengths:?}, blocks of {cuts:?}, {} bytes {:02x?}",
            bytes.len(),
            &bytes[..bytes.len().min(200)]
        )
    });
}

/// Blocks of random lengths below `longest`, empty ones among them.
fn cut<'a>(random: &mut Random, bytes: &'a [u8], longest: u64) -> Vec<&'a [u8]> {
    let mut rest = bytes;
    let mut blocks = Vec::new();
    while !rest.is_empty() {
        let (block, after) = rest.split_at(rest.len().min(random.below(longest) as usize));
        blocks.push(block);
        rest = after;
    }
    blocks
}

fn damaged(comparison: &mut Comparison, seed: u64) {
    let mut random = Random::new(seed ^ 31);
    let other = streams::whole(&mut random, 5);
    for _ in 0..200_000 {
        let seconds = random.below(12) as usize;
        let mut bytes = match random.below(3) {
            0 => streams::any_items(&mut random, seconds),
            _ => streams::whole(&mut random, seconds),
        };
        for _ in 0..random.below(3) {
            streams::damaged(&mut random, &mut bytes, &other);
        }
        let longest = [2, 9, 40, 200][random.below(4) as usize];
        let blocks = cut(&mut random, &bytes, longest);
        let lengths = match random.below(8) {
            0 => [0; 5].map(|_: usize| random.below(8) as usize),
            _ => [14; 5],
        };
        fed(comparison, blocks.into_iter(), lengths);
    }
}

fn two_cuts(comparison: &mut Comparison, seed: u64) {
    let mut random = Random::new(seed ^ 32);
    let mut bytes = streams::plan(&mut random, 0);
    for kind in [streams::MEASURED, streams::MISSING, streams::CHECK] {
        bytes.extend(streams::second(&mut random, kind, 0));
    }
    bytes.extend(streams::plan(&mut random, 0));
    for end in 0..=bytes.len() {
        for second in 0..=end {
            for first in 0..=second {
                let blocks = [&bytes[..first], &bytes[first..second], &bytes[second..end]];
                fed(comparison, blocks.into_iter(), [4; 5]);
            }
        }
    }
}

fn full(comparison: &mut Comparison, seed: u64) {
    let mut random = Random::new(seed ^ 33);
    let bytes = streams::whole(&mut random, 8_193);
    for length in (1..=64).chain([4_095, BLOCK, 5_000, bytes.len()]) {
        fed(comparison, bytes.chunks(length), [8_193; 5]);
        fed(
            comparison,
            bytes[..bytes.len() - 40].chunks(length),
            [8_192; 5],
        );
    }
}

/// A reader made by feeding, and one member altered: refused, all zero, and nothing is written.
fn never_made(comparison: &mut Comparison, seed: u64) {
    let mut random = Random::new(seed ^ 34);
    for _ in 0..20_000 {
        let seconds = random.below(9) as usize;
        let mut bytes = streams::whole(&mut random, seconds);
        bytes.truncate(bytes.len() - random.below(25) as usize % bytes.len());
        let mut lanes = Lanes::guarded([9; 5]);
        let made = library::feed(library::start(), &bytes, lanes.lent()).reader;
        let untouched = lanes.clone();
        for altered in altered(&mut random, made) {
            let fed = library::feed(altered, &bytes, lanes.lent());
            let wanted = Fed {
                refusal: NEVER_MADE,
                ..Fed::default()
            };
            let end = library::end(altered);
            comparison.same(
                (fed, end.refusal, end.place, lanes == untouched),
                (wanted, NEVER_MADE, 0, true),
                || format!("{altered:?}"),
            );
            lanes.clone_from(&untouched);
        }
    }
}

/// Readers that no stream leads to, each one step beside one that was made.
fn altered(random: &mut Random, made: Reader) -> Vec<Reader> {
    let mut readers = Vec::new();
    let mut with = |change: &dyn Fn(&mut Reader)| {
        let mut reader = made;
        change(&mut reader);
        readers.push(reader);
    };
    // the plan as if it had not been read, or as if it had
    with(&|r| r.at = if r.at == 0 { 21 } else { 0 });
    with(&|r| r.at += 1);
    with(&|r| r.at = usize::MAX);
    with(&|r| r.seconds += 1);
    with(&|r| r.seconds = usize::MAX);
    with(&|r| r.count = 21);
    with(&|r| r.count = usize::MAX);
    with(&|r| r.held[20] = 1);
    let number = [1, 4, 7, 9, 10, 12, 13, 14, 255][random.below(9) as usize];
    with(&|r| r.refusal = number);
    with(&|r| r.plan.reference = 20_000_001);
    with(&|r| r.plan.motorway = 101);
    if made.count > 0 {
        with(&|r| r.held[0] = 0x55);
        with(&|r| r.refusal = 8);
        with(&|r| r.count = 0);
    }
    readers
}
