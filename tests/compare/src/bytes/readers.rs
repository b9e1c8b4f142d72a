//! Readers of any bytes: some stream leads to a reader, and the answer is that of the stream, or none
//! does, which is 13.

use std::mem::offset_of;

use library::{Fed, Reader, ReaderBytes};
use oracle::reader::{leading_to, Reader as OnPaper, SoFar};
use oracle::{Plan, Refusal, Rules};

use super::{each_value, part, plan_in};
use crate::account::{Account, Comparison};
use crate::lanes::{answer_by_paper, plan_of, Lanes};
use crate::random::Random;
use crate::streams;

const LIMIT: usize = 8_192;

/// "a reader that the calls never made"
const NEVER_MADE: u8 = 13;

const READER_BYTES: usize = size_of::<ReaderBytes>();

pub fn compare(account: &mut Account) {
    let seed = account.seed;
    account.compare("readers, every value of every byte", |c| {
        every_byte(c, seed)
    });
    account.compare("readers, bytes at random", |c| at_random(c, seed));
}

/// The bytes of a reader, zeros between its members.
fn bytes_of(reader: &OnPaper) -> [u8; READER_BYTES] {
    ReaderBytes::from(reader_of(reader)).0
}

/// The reader that lies in these bytes.
fn reader_in(bytes: &[u8; READER_BYTES]) -> OnPaper {
    let number = |at: usize| usize::from_ne_bytes(part(bytes, at));
    OnPaper {
        refusal: bytes[offset_of!(Reader, refusal)],
        plan: plan_in(&bytes[offset_of!(Reader, plan)..]),
        seconds: number(offset_of!(Reader, seconds)),
        at: number(offset_of!(Reader, at)),
        count: number(offset_of!(Reader, count)),
        held: part(bytes, offset_of!(Reader, held)),
    }
}

/// A reader as the library hands it out.
fn reader_of(reader: &OnPaper) -> Reader {
    Reader {
        refusal: reader.refusal,
        plan: plan_of(&reader.plan),
        seconds: reader.seconds,
        at: reader.at,
        count: reader.count,
        held: reader.held,
    }
}

/// What the paper answers for a block: that of the stream with the block behind it.
fn fed_by_paper(rules: &Rules, stream: Option<&SoFar>, block: &[u8], lanes: &mut Lanes) -> Fed {
    let mut answer = Fed::default();
    match stream {
        Some(stream) => {
            let fed = stream.fed(rules, block, &mut lanes.lent_on_paper());
            answer.reader = reader_of(&fed.reader());
        }
        None => answer.refusal = NEVER_MADE,
    }
    answer
}

/// A reader of these bytes on both sides: fed each block, with every place of every lane, and ended.
fn fed_and_ended(
    comparison: &mut Comparison,
    bytes: [u8; READER_BYTES],
    blocks: &[&[u8]],
    untouched: &Lanes,
) {
    let stream = leading_to(&comparison.rules, &reader_in(&bytes));
    for block in blocks {
        let (mut ours, mut theirs) = (untouched.clone(), untouched.clone());
        let got = library::feed(ReaderBytes(bytes), block, ours.lent());
        let wanted = fed_by_paper(&comparison.rules, stream.as_ref(), block, &mut theirs);
        comparison.same((got, ours == theirs), (wanted, true), || {
            format!(
                "reader {bytes:02x?}, {} places, block {block:02x?}",
                ours.states.len()
            )
        });
    }
    let ended = match &stream {
        Some(stream) => stream.end().map(|found| (found.plan, found.seconds)),
        None => Err(Refusal::new(NEVER_MADE)),
    };
    let got = library::end(ReaderBytes(bytes));
    comparison.same(got, answer_by_paper(ended), || {
        format!("reader {bytes:02x?}, ended")
    });
}

/// A stream, cut where a reader stands.
struct Cut {
    bytes: Vec<u8>,
    at: usize,
    /// Of the lanes before the cut.
    places: usize,
}

impl Cut {
    /// The reader of what came before the cut.
    fn reader(&self, rules: &Rules) -> OnPaper {
        SoFar::of(rules, self.bytes[..self.at].to_vec(), self.places).reader()
    }

    /// What comes next: enough for an item or two.
    fn next(&self) -> &[u8] {
        let end = self.bytes.len().min(self.at + 40);
        &self.bytes[self.at..end]
    }
}

/// Readers of different standing.
fn standings(random: &mut Random) -> Vec<Cut> {
    let mut standings = inside_a_trip(random);
    standings.extend(settled(random));
    standings.extend(long(random));
    standings
}

/// At the start, inside the plan and after it, inside and after a second of each kind.
fn inside_a_trip(random: &mut Random) -> Vec<Cut> {
    let bytes = [
        streams::plan(random, 0),
        streams::second(random, streams::MEASURED, 0),
        streams::second(random, streams::MISSING, 0),
        streams::second(random, streams::CHECK, 0),
        streams::second(random, streams::MEASURED, 0),
        streams::second(random, streams::MISSING, 0),
    ]
    .concat();
    // The seconds begin at 21, 36, 37, 52 and 67.
    let cuts = (0..=22).chain([30, 35, 36, 37, 38, 51, 52, 60, 67, 68]);
    let cut = |at| Cut {
        bytes: bytes.clone(),
        at,
        places: LIMIT,
    };
    cuts.map(cut).collect()
}

/// Settled by an item: before the plan by 8, 11 and 5, after a second by 8, 11, 3 and, in lanes with
/// one place, by 6.
fn settled(random: &mut Random) -> Vec<Cut> {
    let unknown = || vec![0x55];
    let missing = || vec![streams::MISSING];
    let out_of_range = |kind: u8, body: usize| [vec![kind], vec![0xff; body]].concat();
    let plan = streams::plan(random, 0);
    let read = [&plan[..], &missing()].concat();
    let settled = |before: &[u8], item: Vec<u8>| Cut {
        at: before.len() + item.len(),
        bytes: [before, &item, &plan, &missing()].concat(),
        places: 1,
    };
    vec![
        settled(&[], unknown()),
        settled(&[], missing()),
        settled(&[], out_of_range(streams::PLAN, 20)),
        settled(&read, unknown()),
        settled(&read, plan.clone()),
        settled(&read, out_of_range(streams::CHECK, 14)),
        settled(&read, missing()),
    ]
}

/// With hundreds of seconds, and with as many as a trip has: inside one more, and settled by it.
fn long(random: &mut Random) -> Vec<Cut> {
    let second = streams::second(random, streams::MEASURED, 0);
    let some = streams::whole(random, 300);
    let mut full = streams::plan(random, 0);
    full.extend([streams::MISSING; LIMIT]);
    let cut = |bytes: &[u8], more: usize| Cut {
        bytes: [bytes, &second, &second].concat(),
        at: bytes.len() + more,
        places: LIMIT,
    };
    vec![cut(&some, 9), cut(&full, 9), cut(&full, second.len())]
}

/// Lanes with places for a few more seconds than were read, but not for a whole trip.
fn lanes_beyond(seconds: usize) -> Lanes {
    Lanes::guarded([(seconds + 3).min(400); 5])
}

fn every_byte(comparison: &mut Comparison, seed: u64) {
    let mut random = Random::new(seed ^ 41);
    for cut in standings(&mut random) {
        let made = cut.reader(&comparison.rules);
        let mut lanes = Lanes::guarded([cut.places; 5]);
        let fed = library::feed(library::start(), &cut.bytes[..cut.at], lanes.lent());
        comparison.same(fed.reader, reader_of(&made), || {
            format!("a reader of {:02x?}", &cut.bytes[..cut.at])
        });
        let untouched = lanes_beyond(made.seconds);
        each_value(bytes_of(&made), |bytes| {
            fed_and_ended(comparison, bytes, &[cut.next(), &[]], &untouched)
        });
    }
}

fn at_random(comparison: &mut Comparison, seed: u64) {
    let mut random = Random::new(seed ^ 42);
    let mut short = standings(&mut random);
    short.retain(|cut| cut.at < LIMIT);
    let bytes_of_cut = |cut: &Cut| bytes_of(&cut.reader(&comparison.rules));
    let made: Vec<[u8; READER_BYTES]> = short.iter().map(bytes_of_cut).collect();
    for _ in 0..200_000 {
        let bytes = match random.below(8) {
            0 => [0; READER_BYTES].map(|_| random.bits() as u8),
            1 | 2 => {
                let made = made[random.below(made.len() as u64) as usize];
                altered(&mut random, made)
            }
            _ => bytes_of(&near_the_borders(&comparison.rules, &mut random)),
        };
        let items = random.below(3) as usize;
        let block = streams::any_items(&mut random, items);
        let from = random.below(block.len() as u64 + 1) as usize;
        let untouched = Lanes::guarded([0; 5].map(|_: usize| 9 + random.below(4) as usize));
        fed_and_ended(comparison, bytes, &[&block[from..]], &untouched);
    }
}

/// Two to four bytes altered, some of them a little.
fn altered<const N: usize>(random: &mut Random, mut bytes: [u8; N]) -> [u8; N] {
    for _ in 0..2 + random.below(3) {
        let at = random.below(N as u64) as usize;
        bytes[at] = match random.below(3) {
            0 => random.bits() as u8,
            1 => bytes[at].wrapping_add(1),
            _ => bytes[at].wrapping_sub(1),
        };
    }
    bytes
}

/// A reader whose members go together, and every other time one of them moved a step.
fn near_the_borders(rules: &Rules, random: &mut Random) -> OnPaper {
    let mut reader = OnPaper::default();
    let second = streams::second(random, streams::MEASURED, 0);
    if random.below(5) > 0 {
        reader = SoFar::of(rules, streams::plan(random, 0), 0).reader();
        reader.seconds = match random.below(200) {
            0 => LIMIT - 1 + random.below(3) as usize,
            _ => random.below(9) as usize,
        };
        let with_values = random.below(reader.seconds as u64 + 1) as usize;
        reader.at += with_values * second.len() + (reader.seconds - with_values);
    }
    if random.below(3) == 0 {
        reader.refusal = random.below(16) as u8;
    } else {
        hold(random, &mut reader);
    }
    if random.below(2) == 0 {
        step(random, &mut reader, second.len());
    }
    reader
}

/// The front of an item is held, some of them whole.
fn hold(random: &mut Random, reader: &mut OnPaper) {
    let kind = streams::kind(random);
    let item = match random.below(3) {
        0 => streams::plan(random, 3),
        _ => streams::second(random, kind, 3),
    };
    reader.count = random.below(item.len() as u64 + 1) as usize;
    reader.held[..reader.count].copy_from_slice(&item[..reader.count]);
}

/// One member moved a step: by one, by the bytes that values take, or over an end of its range.
fn step(random: &mut Random, reader: &mut OnPaper, second: usize) {
    let one = [1, usize::MAX][random.below(2) as usize];
    match random.below(8) {
        0 => reader.at = reader.at.wrapping_add(one),
        1 => reader.at = reader.at.wrapping_add(one.wrapping_mul(second - 1)),
        2 => reader.seconds = reader.seconds.wrapping_add(one),
        3 => reader.count = reader.count.wrapping_add(one),
        4 => reader.held[random.below(21) as usize] ^= 1 << random.below(8),
        5 => reader.plan = Plan::default(),
        6 => reader.plan.reference = [0, 20_000_000, 20_000_001][random.below(3) as usize],
        _ => reader.plan.upper[random.below(3) as usize] = 100 + random.below(2) as u8,
    }
}
