//! A whole trip evaluated.

use library::{Bin, Class, Lent, Plan, Tally, Trip, TripAnswer};

use crate::plain_trip;
use crate::timing::{against, best, print, Growth};

/// A trip's lanes, and the lanes that it lends.
struct Lanes {
    states: Vec<u8>,
    speeds: Vec<u16>,
    altitudes: Vec<i32>,
    co2: Vec<u32>,
    nox: Vec<u32>,
    kept_speeds: Vec<u16>,
    kept_co2: Vec<u32>,
    ends: Vec<u16>,
    ranks: Vec<u32>,
}

/// A curve near what the drive emits: most windows are inside, so that both comparisons are made.
const PLAN: Plan = Plan {
    reference: 2_700_000,
    e1: 90_000,
    e2: 72_000,
    e3: 66_000,
    lower: 25,
    urban: 45,
    rural: 40,
    motorway: 40,
};

/// A reference that windows of some hundred seconds reach, in short trips too.
const SHORT_WINDOWS: Plan = Plan {
    reference: 200_000,
    ..PLAN
};

/// A reference that no window of these trips reaches.
const NO_WINDOWS: Plan = Plan {
    reference: 20_000_000,
    ..PLAN
};

pub fn bench() -> Growth {
    timed("a trip of 7,200 seconds", 7_200, drive);
    timed("a trip of 8,192 seconds", 8_192, drive);
    timed(
        "8,192 seconds, long windows, all accelerating",
        8_192,
        worst,
    );
    figures();
    let [small, large] = [1_024, 8_192].map(|seconds| {
        let mut ours = lanes(seconds, drive);
        let mut theirs = lanes(seconds, drive);
        best(
            "growth",
            || folded(evaluate(SHORT_WINDOWS, &mut ours)),
            || folded(plain(SHORT_WINDOWS, &mut theirs)),
        )
    });
    Growth {
        work: "a trip with windows of one length",
        small,
        large,
    }
}

/// Times the evaluation of a trip, and compares all that it answers and writes.
fn timed(name: &str, seconds: usize, second: fn(&mut Drive, usize) -> (u16, u32)) {
    let mut ours = lanes(seconds, second);
    let mut theirs = lanes(seconds, second);
    against(
        name,
        || folded(evaluate(PLAN, &mut ours)),
        || folded(plain(PLAN, &mut theirs)),
    );
    assert!(ours.ranks == theirs.ranks && ours.ends == theirs.ends);
    assert_eq!(evaluate(PLAN, &mut ours), plain(PLAN, &mut theirs));
}

/// The figures of a trip's windows alone: what the trip takes more than the same trip without one.
fn figures() {
    let mut ours = lanes(7_200, drive);
    let mut theirs = lanes(7_200, drive);
    let [with, without] = [PLAN, NO_WINDOWS].map(|plan| {
        best(
            "figures",
            || folded(evaluate(plan, &mut ours)),
            || folded(plain(plan, &mut theirs)),
        )
    });
    let answer = evaluate(PLAN, &mut ours);
    assert_eq!(evaluate(NO_WINDOWS, &mut ours).windows, 0);
    let inside: u32 = answer.classes.iter().map(|class| class.inside).sum();
    assert!(2 * inside > answer.windows);
    let name = format!(
        "the figures of {} windows of about {} s",
        answer.windows,
        answer.kept - answer.windows
    );
    print(&name, with.less(without));
}

fn evaluate(plan: Plan, lanes: &mut Lanes) -> TripAnswer {
    let (trip, lent) = parts(lanes);
    library::evaluate(plan, trip, lent)
}

fn plain(plan: Plan, lanes: &mut Lanes) -> TripAnswer {
    let (trip, lent) = parts(lanes);
    plain_trip::evaluate(plan, trip, lent)
}

fn parts(lanes: &mut Lanes) -> (Trip<'_>, Lent<'_>) {
    (
        Trip {
            states: &lanes.states,
            speeds: &lanes.speeds,
            altitudes: &lanes.altitudes,
            co2: &lanes.co2,
            nox: &lanes.nox,
        },
        Lent {
            kept_speeds: &mut lanes.kept_speeds,
            kept_co2: &mut lanes.kept_co2,
            ends: &mut lanes.ends,
            ranks: &mut lanes.ranks,
        },
    )
}

/// A drive under way.
struct Drive {
    seconds: usize,
    speed: i64,
    state: u64,
}

impl Drive {
    fn random(&mut self, end: u64) -> u64 {
        self.state = self
            .state
            .wrapping_mul(6_364_136_223_846_793_005)
            .wrapping_add(1_442_695_040_888_963_407);
        (self.state >> 33) % end
    }
}

/// Speed and CO2 of a second: speeds that wander through the three bins, CO2 that follows them.
fn drive(drive: &mut Drive, i: usize) -> (u16, u32) {
    let aim = [3_000, 7_500, 12_000][i * 3 / drive.seconds];
    let shake = drive.random(301) as i64 - 150;
    drive.speed = (drive.speed + (aim - drive.speed) / 20 + shake).clamp(0, 15_900);
    let co2 = drive.speed as u32 / 6 + drive.random(400) as u32;
    (drive.speed as u16, co2)
}

/// The worst kind found: nearly every second accelerates, and half the seconds begin a window of half
/// the trip.
fn worst(_: &mut Drive, i: usize) -> (u16, u32) {
    ((i * 97 % 16_000) as u16, PLAN.reference / 4_096)
}

fn lanes(seconds: usize, second: fn(&mut Drive, usize) -> (u16, u32)) -> Lanes {
    let mut drive = Drive {
        seconds,
        speed: 0,
        state: 2017_1151,
    };
    let (speeds, co2) = (0..seconds).map(|i| second(&mut drive, i)).unzip();
    Lanes {
        states: vec![1; seconds],
        speeds,
        altitudes: (0..seconds).map(|i| 20_000 + (i as i32 % 200)).collect(),
        co2,
        nox: vec![900; seconds],
        kept_speeds: vec![0; seconds],
        kept_co2: vec![0; seconds],
        ends: vec![0; seconds],
        ranks: vec![0; seconds],
    }
}

fn folded(answer: TripAnswer) -> u64 {
    let bins: u64 = answer
        .bins
        .iter()
        .map(|b: &Bin| b.t + b.q + b.co2 + b.nox)
        .sum();
    let classes: u64 = answer
        .classes
        .iter()
        .map(|c: &Class| u64::from(c.windows + c.inside))
        .sum();
    let Tally { distance, .. } = answer.total;
    bins + classes + u64::from(distance) + answer.climb + u64::from(answer.verdict)
}
