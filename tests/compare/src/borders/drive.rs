//! Drives of straight ramps and holds, with the distance and the seconds of each bin as wanted.

use super::measure::{bin, figures, stops, MOTORWAY, RURAL, URBAN};

/// Speeds put one after another.
#[derive(Clone, Debug, Default)]
pub struct Line(pub Vec<u16>);

impl Line {
    fn last(&self) -> u16 {
        self.0.last().copied().unwrap_or(0)
    }

    /// The same speed for some seconds.
    pub fn hold(&mut self, speed: u16, seconds: usize) {
        self.0.extend(std::iter::repeat_n(speed, seconds));
    }

    /// From the last speed to another, in equal steps; the last step may be shorter.
    pub fn ramp(&mut self, to: u16, step: u16) {
        while self.last() != to {
            let from = self.last();
            let next = if from < to {
                from.saturating_add(step).min(to)
            } else {
                from.saturating_sub(step).max(to)
            };
            self.0.push(next);
        }
    }
}

/// A rise from standing in as few seconds as an urban bin bears: none of its products passes
/// 4,250,000.
const SPIRITED: [u16; 9] = [
    1_500, 2_500, 3_200, 3_800, 4_300, 4_750, 5_150, 5_500, 5_850,
];

/// Waves between a low and a high speed.
#[derive(Clone, Copy, Debug)]
pub struct Waves {
    pub count: usize,
    pub low: u16,
    pub low_seconds: usize,
    /// Where the ramp upwards ends.
    pub high: u16,
    pub high_seconds: usize,
    pub up: u16,
    pub down: u16,
    /// The last step upwards, beyond `high`; 0 for none.
    pub kick: u16,
    /// Whether rises from standing are spirited.
    pub spirited: bool,
}

impl Waves {
    /// From standing, through the waves, to standing.
    pub fn line(&self) -> Line {
        let mut line = Line::default();
        self.rise(&mut line, self.low, 200);
        for _ in 0..self.count {
            line.hold(self.low, self.low_seconds);
            self.rise(&mut line, self.high, self.up);
            line.ramp(self.high + self.kick, self.kick.max(1));
            line.hold(self.high + self.kick, self.high_seconds);
            line.ramp(self.low, self.down);
        }
        self.rise(&mut line, self.high, self.up.max(200));
        line.ramp(0, 200);
        line
    }

    /// A ramp upwards, its beginning from standing spirited or not.
    fn rise(&self, line: &mut Line, to: u16, step: u16) {
        if self.spirited && line.last() == 0 && to > 0 {
            line.0.extend(SPIRITED);
        }
        line.ramp(to, step);
    }
}

/// From standing to 13,000 in two seconds, the first at 6,000, and back.
fn sprint() -> Line {
    let mut line = Line::default();
    line.hold(0, 2);
    line.0.push(6_000);
    line.hold(13_000, 3);
    line.ramp(0, 400);
    line
}

const URBAN_WAVES: Waves = Waves {
    count: 40,
    low: 0,
    low_seconds: 8,
    high: 5_000,
    high_seconds: 12,
    up: 200,
    down: 250,
    kick: 0,
    spirited: false,
};

const RURAL_WAVES: Waves = Waves {
    count: 9,
    low: 6_200,
    low_seconds: 6,
    high: 8_800,
    high_seconds: 8,
    up: 100,
    down: 100,
    kick: 0,
    spirited: false,
};

const MOTORWAY_WAVES: Waves = Waves {
    count: 4,
    low: 10_200,
    low_seconds: 10,
    high: 12_600,
    high_seconds: 12,
    up: 60,
    down: 100,
    kick: 0,
    spirited: false,
};

/// What a drive is to be: waves of each bin, and what one hold in each bin makes up for.
#[derive(Clone, Debug)]
pub struct Wish {
    /// The bins in the order they are driven in.
    pub order: [usize; 3],
    pub waves: [Waves; 3],
    /// S of each bin.
    pub distance: [i64; 3],
    /// N of each bin.
    pub seconds: [i64; 3],
    /// Sprints before the motorway is driven.
    pub sprints: usize,
    /// Seconds below 100; what the waves do not have stands at the start.
    pub stops: usize,
}

impl Wish {
    /// A drive that breaks no rule, with room on all sides.
    pub fn usual() -> Wish {
        Wish {
            order: [URBAN, RURAL, MOTORWAY],
            waves: [URBAN_WAVES, RURAL_WAVES, MOTORWAY_WAVES],
            distance: [9_000_000, 7_500_000, 7_500_000],
            seconds: [4_300, 1_010, 660],
            sprints: 0,
            stops: 700,
        }
    }

    /// The waves alone.
    fn parts(&self) -> [Line; 3] {
        let mut parts = self.waves.map(|waves| waves.line());
        let sprints = sprint().0.repeat(self.sprints);
        parts[MOTORWAY].0.splice(0..0, sprints);
        parts
    }

    /// The waves alone, driven in order.
    pub fn waves_alone(&self) -> Vec<u16> {
        let parts = self.parts();
        self.order.map(|which| parts[which].0.clone()).concat()
    }

    /// The drive: waves, and one hold in each bin that makes distance and seconds as wanted.
    pub fn speeds(&self) -> Vec<u16> {
        let alone = self.waves_alone();
        let already = figures(&alone);
        let standing = self.stops - stops(&alone);
        let mut parts = self.parts();
        for (which, part) in parts.iter_mut().enumerate() {
            let mut seconds = self.seconds[which] - already[which].seconds;
            if which == URBAN {
                seconds -= standing as i64;
            }
            let distance = self.distance[which] - already[which].distance;
            put_hold(&mut part.0, which, distance, seconds);
        }
        let driven = self.order.map(|which| parts[which].0.clone()).concat();
        [vec![0; standing], driven].concat()
    }
}

/// Puts a hold of a given distance into the last ramp downwards, where it changes no D above 72.
fn put_hold(speeds: &mut Vec<u16>, which: usize, distance: i64, seconds: i64) {
    assert!(
        seconds > 0 && distance > 0,
        "room for a hold: {distance} in {seconds} s, bin {which}"
    );
    let (level, more) = (distance / seconds, distance % seconds);
    let level = u16::try_from(level).expect("a speed");
    assert!(
        level >= 100 && bin(level) == which && bin(level + 1) == which,
        "{level} in bin {which}"
    );
    let before = speeds
        .iter()
        .rposition(|&speed| speed > level)
        .expect("a ramp from above");
    let hold = (0..seconds).map(|second| level + u16::from(second < more));
    speeds.splice(before + 1..before + 1, hold);
}
