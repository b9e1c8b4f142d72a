//! A plan and lanes into a stream: the answer, every byte of the buffer and those beside it.

use library::{ReadAnswer, WriteAnswer};
use oracle::numbers::{ACCEPTED, CHECK, MEASURED, MISSING};
use oracle::second::Second;
use oracle::Plan;

use crate::account::{Account, Comparison};
use crate::case::{fed_to_library, Case, WriteInput};
use crate::chosen::{plans_at_ends, seconds_at_ends, PLAN};
use crate::lanes::{plan_of, Buffer, Lanes};
use crate::random::Random;
use crate::stream::{full, STREAMS};
use crate::streams;
use crate::trips;

const LIMIT: usize = 8_192;

/// Places behind a stream: more than an item has.
const BEHIND: usize = 40;

/// The longest block that the program reads, and one that cuts every item.
const BLOCKS: [usize; 2] = [4_096, 13];

pub fn compare(account: &mut Account) {
    let seed = account.seed;
    account.compare("writer, plans and lanes of any character", |c| any(c, seed));
    account.compare("writer, buffers of every length", |c| buffers(c, seed));
    account.compare("writer, every refusal and pairs of them", |c| {
        refusals(c, seed)
    });
    account.compare("writer, each end of each range, at each second", ends);
    account.compare("writer, every state at each second", |c| states(c, seed));
    account.compare("writer, lanes of every length up to three", lanes);
    account.compare("writer, full trips and one second more", |c| {
        full_trips(c, seed)
    });
    account.compare("writer, written, then read whole and in blocks", |c| {
        read_back(c, seed)
    });
    account.compare(
        "writer, readable streams, read whole and in blocks, then written",
        |c| rewritten(c, seed),
    );
    account.compare(
        "writer, each front of three full streams, read and written",
        |c| fronts(c, seed),
    );
}

/// One call on both sides.
fn write(comparison: &mut Comparison, plan: &Plan, trip: &Lanes, places: usize) {
    let (plan, trip) = (*plan, trip.clone());
    comparison.case(&Case::Write(WriteInput { plan, trip, places }));
}

/// The bytes of the stream of these lanes.
fn needed(trip: &Lanes) -> usize {
    streams::of_trip(&Plan::default(), &trip.seconds()).len()
}

/// A plan with one value just outside its range.
fn spoiled(random: &mut Random, mut plan: Plan) -> Plan {
    match random.below(8) {
        0 => plan.reference = [0, 20_000_001][random.below(2) as usize],
        1 => plan.e1 = [0, 2_000_001][random.below(2) as usize],
        2 => plan.e2 = [0, 2_000_001][random.below(2) as usize],
        3 => plan.e3 = [0, 2_000_001][random.below(2) as usize],
        4 => plan.lower = 101,
        class => plan.upper[class as usize - 5] = 101,
    }
    plan
}

/// A plan and lanes, now and then with faults, into a buffer that mostly holds them.
fn any(comparison: &mut Comparison, seed: u64) {
    let mut random = Random::new(seed ^ 61);
    for round in 0..200_000u64 {
        let n = if round % 500 == 0 {
            random.below(600)
        } else {
            random.below(12)
        } as usize;
        let mut plan = trips::plan(&mut random);
        let mut trip = Lanes::of(&trips::small(&mut random, n));
        if random.below(12) == 0 {
            plan = spoiled(&mut random, plan);
        }
        if n > 0 && random.below(8) == 0 {
            trip.spoil(&mut random);
        }
        let needed = needed(&trip);
        if n > 0 && random.below(12) == 0 {
            trip.shorten(&mut random);
        }
        let places = match random.below(6) {
            0 => random.below(needed as u64) as usize,
            1 => needed - 1,
            2 => needed,
            _ => needed + random.below(BEHIND as u64) as usize,
        };
        write(comparison, &plan, &trip, places);
    }
}

/// Small trips, empty ones and such of missing seconds alone among them, into every buffer from
/// none to one with places behind.
fn buffers(comparison: &mut Comparison, seed: u64) {
    let mut random = Random::new(seed ^ 62);
    for round in 0..400 {
        let plan = trips::plan(&mut random);
        let mut trip = Lanes::of(&trips::small(&mut random, round % 7));
        if round % 5 == 0 {
            trip.states.fill(MISSING);
        }
        for places in 0..=needed(&trip) + BEHIND {
            write(comparison, &plan, &trip, places);
        }
    }
}

fn refusals(comparison: &mut Comparison, seed: u64) {
    let mut random = Random::new(seed ^ 63);
    for faults in 0..32u32 {
        let [bad_plan, differ, many, bad_second, short] =
            [1, 2, 4, 8, 16].map(|fault| faults & fault > 0);
        for _ in 0..if many { 4 } else { 200 } {
            let n = if many {
                LIMIT + 1
            } else {
                1 + random.below(9) as usize
            };
            let mut plan = trips::plan(&mut random);
            let mut trip = Lanes::of(&trips::small(&mut random, n));
            if bad_plan {
                plan = spoiled(&mut random, plan);
            }
            if bad_second {
                trip.spoil(&mut random);
            }
            let needed = needed(&trip);
            if differ {
                trip.shorten(&mut random);
            }
            let lacking = if short {
                1 + random.below(needed as u64) as usize
            } else {
                0
            };
            write(comparison, &plan, &trip, needed - lacking);
        }
    }
}

/// A second in range.
const GOOD: Second = Second {
    state: MEASURED,
    speed: 12_345,
    altitude: -321,
    co2: 70_001,
    nox: 9_000_001,
};

/// Both sides of every end of a plan's ranges; those of a second's in each state, with another fault
/// behind it and without.
fn ends(comparison: &mut Comparison) {
    for plan in plans_at_ends() {
        let trip = Lanes::of(&[GOOD]);
        write(comparison, &plan, &trip, needed(&trip));
    }
    for second in [MEASURED, MISSING, CHECK].map(seconds_at_ends).concat() {
        for place in 0..3 {
            for last in [GOOD, Second { state: 4, ..GOOD }] {
                let mut seconds = [GOOD, GOOD, GOOD, last];
                seconds[place] = second;
                let trip = Lanes::of(&seconds);
                write(comparison, &PLAN, &trip, needed(&trip));
            }
        }
    }
}

/// Each byte as the state of each second of a short trip.
fn states(comparison: &mut Comparison, seed: u64) {
    let mut random = Random::new(seed ^ 64);
    for _ in 0..20 {
        let plan = trips::plan(&mut random);
        let trip = Lanes::of(&trips::small(&mut random, 4));
        for place in 0..trip.states.len() {
            for state in 0..=u8::MAX {
                let mut altered = trip.clone();
                altered.states[place] = state;
                write(comparison, &plan, &altered, needed(&altered));
            }
        }
    }
}

/// Five lanes, each of every length from none to three.
fn lanes(comparison: &mut Comparison) {
    for lengths in 0..4usize.pow(5) {
        let mut trip = Lanes::of(&[GOOD; 3]);
        let length = |lane: u32| lengths / 4usize.pow(lane) % 4;
        trip.states.truncate(length(0));
        trip.speeds.truncate(length(1));
        trip.altitudes.truncate(length(2));
        trip.co2.truncate(length(3));
        trip.nox.truncate(length(4));
        for places in [0, needed(&trip), needed(&trip) + BEHIND] {
            write(comparison, &PLAN, &trip, places);
        }
    }
}

/// Full trips: twelve of one character, some of any, one of missing seconds alone.
fn full_length(random: &mut Random) -> Vec<Vec<Second>> {
    let mut trips: Vec<_> = (0..12).map(|each| trips::uniform(LIMIT, each)).collect();
    trips.extend((0..4).map(|_| trips::small(random, LIMIT)));
    trips.push(vec![Second::missing(); LIMIT]);
    trips
}

/// Full trips into buffers around the needed one, with a bad last second, and with one second more
/// than a call takes.
fn full_trips(comparison: &mut Comparison, seed: u64) {
    let mut random = Random::new(seed ^ 65);
    for mut seconds in full_length(&mut random) {
        let plan = trips::plan(&mut random);
        let trip = Lanes::of(&seconds);
        let needed = needed(&trip);
        for places in [needed - 1, needed, needed + BEHIND] {
            write(comparison, &plan, &trip, places);
        }
        let mut bad_last = trip.clone();
        bad_last.states[LIMIT - 1] = 0;
        write(comparison, &plan, &bad_last, needed);
        seconds.push(GOOD);
        write(comparison, &plan, &Lanes::of(&seconds), needed + BEHIND);
    }
}

/// "reading back gives zeros there and otherwise the same lanes": and the places behind as they were.
fn read_back(comparison: &mut Comparison, seed: u64) {
    let mut random = Random::new(seed ^ 66);
    for round in 0..20_000u64 {
        let n = match round % 1_000 {
            0 => LIMIT,
            _ => random.below(30) as usize,
        };
        let plan = trips::plan(&mut random);
        let seconds = trips::small(&mut random, n);
        let trip = Lanes::of(&seconds);
        let mut buffer = Buffer::guarded(needed(&trip));
        let written = library::write(plan_of(&plan), trip.trip(), buffer.lent());
        let wanted = ReadAnswer {
            plan: plan_of(&plan),
            seconds: n,
            ..ReadAnswer::default()
        };
        let untouched = Lanes::guarded([n + 2; 5]);
        for (answer, lanes) in read_both_ways(buffer.front(written.bytes), &untouched) {
            let same = lanes == read_as(&seconds, &untouched);
            comparison.same((answer, same), (wanted, true), || {
                format!("{n} seconds written, {plan:?}")
            });
        }
    }
}

/// Lanes that hold the seconds, zeros for a missing one, and behind them what was there.
fn read_as(seconds: &[Second], untouched: &Lanes) -> Lanes {
    let zeroed = seconds.iter().map(|second| match second.state {
        MISSING => Second::missing(),
        _ => *second,
    });
    let behind = untouched.seconds().into_iter().skip(seconds.len());
    Lanes::of(&zeroed.chain(behind).collect::<Vec<Second>>())
}

/// A stream read by the library whole and in blocks, into lanes that were untouched.
fn read_both_ways(stream: &[u8], untouched: &Lanes) -> [(ReadAnswer, Lanes); 2] {
    let (mut whole, mut in_blocks) = (untouched.clone(), untouched.clone());
    let answer = library::read(stream, whole.lent());
    let length = BLOCKS[usize::from(stream.len() < BLOCKS[0])];
    let fed = fed_to_library(stream.chunks(length), &mut in_blocks);
    [(answer, whole), (fed, in_blocks)]
}

/// A stream, where it is readable, read both ways and written again: "the same bytes", the rest of
/// the buffer as it was. The buffer has no place more, or some.
fn read_and_written(comparison: &mut Comparison, stream: &[u8], places: [usize; 5]) {
    let wanted = WriteAnswer {
        bytes: stream.len(),
        ..WriteAnswer::default()
    };
    let read = read_both_ways(stream, &Lanes::guarded(places));
    for ((answer, lanes), behind) in read.iter().zip([0, BEHIND]) {
        if answer.refusal != ACCEPTED {
            continue;
        }
        let mut buffer = Buffer::guarded(stream.len() + behind);
        let trip = lanes.front(answer.seconds);
        let got = library::write(answer.plan, trip, buffer.lent());
        let same = buffer == Buffer::holding(stream, stream.len() + behind);
        comparison.same((got, same), (wanted, true), || {
            let shown = &stream[..stream.len().min(200)];
            format!(
                "{behind} places behind, {} bytes {shown:02x?}",
                stream.len()
            )
        });
    }
}

/// All streams that the reader is compared on.
fn rewritten(comparison: &mut Comparison, seed: u64) {
    for (_, streams) in STREAMS {
        streams(seed, &mut |stream, places| {
            read_and_written(comparison, stream, places)
        });
    }
}

/// Full streams cut behind each item, which leaves a readable stream. The lanes are longer: what is
/// handed over is their front, as a tail is trimmed.
fn fronts(comparison: &mut Comparison, seed: u64) {
    for stream in full(seed) {
        let mut end = 0;
        while end < stream.len() {
            end += library::item(&stream[end..]).length;
            read_and_written(comparison, &stream[..end], [LIMIT; 5]);
        }
    }
}
