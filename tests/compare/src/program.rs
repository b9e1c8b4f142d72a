//! The program beside the independent one: what it prints for a stream that a pipe hands over.

use std::io::{ErrorKind, Write};
use std::path::{Path, PathBuf};
use std::process::{Command, Stdio};

use oracle::numbers::ACCEPTED;

use crate::account::{Account, Comparison};
use crate::lanes::{plan_of, Buffer, Lanes};
use crate::random::Random;
use crate::streams;
use crate::trips;

/// How many inputs the program is run on.
pub struct Amount {
    pub damaged: usize,
    pub realistic: usize,
    pub written: usize,
    /// Of a full stream every so many-th prefix.
    pub prefix_step: usize,
}

pub const SOME: Amount = Amount {
    damaged: 3_000,
    realistic: 60,
    written: 300,
    prefix_step: 97,
};

pub const ALL: Amount = Amount {
    damaged: 60_000,
    realistic: 2_000,
    written: 6_000,
    prefix_step: 1,
};

pub fn compare(account: &mut Account, amount: &Amount) {
    let seed = account.seed;
    account.compare("program, damaged streams by odd blocks", |c| {
        damaged(c, seed, amount.damaged)
    });
    account.compare("program, realistic trips by odd blocks", |c| {
        realistic(c, seed, amount.realistic)
    });
    account.compare("program, trips that the library wrote", |c| {
        written(c, seed, amount.written)
    });
    account.compare("program, every prefix of a short stream", |c| {
        let bytes = streams::whole(&mut Random::new(seed ^ 43), 20);
        prefixes(c, &bytes, 1)
    });
    account.compare("program, prefixes of a full stream", |c| {
        let bytes = streams::whole(&mut Random::new(seed ^ 44), 8_192);
        prefixes(c, &bytes, amount.prefix_step)
    });
}

fn program() -> PathBuf {
    Path::new(env!("CARGO_MANIFEST_DIR")).join("../../target/bin/judge")
}

/// What the program prints for a stream; what it says on standard error, or a status that is not
/// 0, stands behind it.
pub fn printed(bytes: &[u8]) -> String {
    printed_by_blocks(bytes, &[bytes.len()])
}

/// The same, the stream handed over in writes of these lengths by turns.
fn printed_by_blocks(bytes: &[u8], lengths: &[usize]) -> String {
    let mut child = Command::new(program())
        .stdin(Stdio::piped())
        .stdout(Stdio::piped())
        .stderr(Stdio::piped())
        .spawn()
        .expect("the program is there: `make judge` builds it");
    let mut pipe = child.stdin.take().expect("a pipe");
    let mut rest = bytes;
    for &length in lengths.iter().cycle() {
        if rest.is_empty() {
            break;
        }
        let (block, after) = rest.split_at(length.clamp(1, rest.len()));
        match pipe.write_all(block) {
            // The program has stopped reading: the first bad item settled the answer.
            Err(error) if error.kind() == ErrorKind::BrokenPipe => break,
            written => written.expect("the pipe takes the block"),
        }
        rest = after;
    }
    drop(pipe);
    let output = child.wait_with_output().expect("the program ends");
    let mut text = String::from_utf8_lossy(&output.stdout).into_owned();
    text += &String::from_utf8_lossy(&output.stderr);
    if !output.status.success() {
        text += &format!("{}\n", output.status);
    }
    text
}

/// A stream on both sides, handed over in writes of these lengths by turns.
fn judged(comparison: &mut Comparison, bytes: &[u8], lengths: &[usize]) {
    let got = printed_by_blocks(bytes, lengths);
    let wanted = oracle::report::judge(&comparison.rules, bytes);
    comparison.same(got, wanted, || {
        format!(
            "by {lengths:?}, {} bytes {:02x?}",
            bytes.len(),
            &bytes[..bytes.len().min(200)]
        )
    });
}

fn odd_lengths(random: &mut Random) -> [usize; 3] {
    let longest = [20, 300, 9_000][random.below(3) as usize];
    [0; 3].map(|_: usize| 1 + random.below(longest) as usize)
}

fn damaged(comparison: &mut Comparison, seed: u64, inputs: usize) {
    let mut random = Random::new(seed ^ 41);
    let other = streams::whole(&mut random, 5);
    judged(comparison, &[], &[1]);
    for _ in 0..inputs {
        let seconds = random.below(40) as usize;
        let mut bytes = match random.below(3) {
            0 => streams::any_items(&mut random, seconds),
            _ => streams::whole(&mut random, seconds),
        };
        for _ in 0..random.below(3) {
            streams::damaged(&mut random, &mut bytes, &other);
        }
        let lengths = odd_lengths(&mut random);
        judged(comparison, &bytes, &lengths);
    }
}

fn realistic(comparison: &mut Comparison, seed: u64, inputs: usize) {
    let mut random = Random::new(seed ^ 42);
    for _ in 0..inputs {
        let (mut plan, mut seconds) = trips::realistic(&mut random);
        if random.below(2) == 0 {
            plan = trips::bend(&mut random, plan, &mut seconds);
        }
        let bytes = streams::of_trip(&plan, &seconds);
        let lengths = odd_lengths(&mut random);
        judged(comparison, &bytes, &lengths);
    }
}

/// Trips of any character: the program judges the stream that the library wrote as the independent
/// program judges the lanes.
fn written(comparison: &mut Comparison, seed: u64, inputs: usize) {
    let mut random = Random::new(seed ^ 45);
    for round in 0..inputs {
        let (plan, seconds) = match round % 10 {
            0 => trips::realistic(&mut random),
            _ => {
                let n = random.below(40) as usize;
                (trips::plan(&mut random), trips::small(&mut random, n))
            }
        };
        let trip = Lanes::of(&seconds);
        let mut buffer = Buffer::guarded(streams::of_trip(&plan, &seconds).len());
        let answer = library::write(plan_of(&plan), trip.trip(), buffer.lent());
        let got = (answer.refusal, printed(buffer.front(answer.bytes)));
        let judged = oracle::report::judge_lanes(&comparison.rules, &plan, trip.trip_on_paper());
        comparison.same(got, (ACCEPTED, judged), || {
            format!("{} seconds written, {plan:?}", seconds.len())
        });
    }
}

fn prefixes(comparison: &mut Comparison, bytes: &[u8], step: usize) {
    for end in (0..=bytes.len()).step_by(step) {
        judged(comparison, &bytes[..end], &[4_096]);
    }
}
