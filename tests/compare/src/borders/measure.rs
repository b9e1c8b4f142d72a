//! What a drive measures: the sums that a border is set by.

use oracle::second::Second;

use super::base::MISSING;

/// Urban, rural, motorway.
pub const URBAN: usize = 0;
pub const RURAL: usize = 1;
pub const MOTORWAY: usize = 2;

pub const NAMES: [&str; 3] = ["urban", "rural", "motorway"];

/// "urban up to 6,000, rural up to 9,000, motorway above"
pub fn bin(speed: u16) -> usize {
    match speed {
        0..=6_000 => URBAN,
        6_001..=9_000 => RURAL,
        _ => MOTORWAY,
    }
}

/// The figures of one bin of a drive without missing seconds.
#[derive(Clone, Debug, Default)]
pub struct Figures {
    /// S
    pub distance: i64,
    /// N
    pub seconds: i64,
    /// "P = speed times D", ascending.
    pub products: Vec<i64>,
}

impl Figures {
    /// T
    pub fn product_sum(&self) -> i64 {
        self.products.iter().sum()
    }

    /// Q
    pub fn percentile(&self) -> i64 {
        let j = 95 * self.products.len() / 100;
        let r = (95 * self.products.len() % 100) as i64;
        let x = |number: usize| self.products[number - 1];
        if r == 0 {
            100 * x(j)
        } else {
            100 * x(j) + r * (x(j + 1) - x(j))
        }
    }
}

/// The figures of each bin of a drive without missing seconds.
pub fn figures(speeds: &[u16]) -> [Figures; 3] {
    let mut found = [(); 3].map(|()| Figures::default());
    let at = |index: Option<usize>| {
        index
            .and_then(|i| speeds.get(i))
            .map_or(0, |&speed| i64::from(speed))
    };
    for (i, &speed) in speeds.iter().enumerate() {
        let of_bin = &mut found[bin(speed)];
        of_bin.seconds += 1;
        of_bin.distance += i64::from(speed);
        let d = at(Some(i + 1)) - at(i.checked_sub(1));
        if d > 72 {
            of_bin.products.push(i64::from(speed) * d);
        }
    }
    for of_bin in &mut found {
        of_bin.products.sort();
    }
    found
}

/// "urban seconds below 100"
pub fn stops(speeds: &[u16]) -> usize {
    speeds.iter().filter(|&&speed| speed < 100).count()
}

/// "Climb is the sum of upward steps between successive corrected altitudes, missing seconds passed
/// over."
pub fn climb(seconds: &[Second]) -> i64 {
    let mut climb = 0;
    let mut corrected: Option<i64> = None;
    let mut before: Option<i64> = None;
    for second in seconds {
        if second.state == MISSING {
            before = None;
            continue;
        }
        let recorded = i64::from(second.altitude);
        let change = before.map_or(0, |before| recorded - before);
        let held = 648 * change * change > 25 * i64::from(second.speed) * i64::from(second.speed);
        let now = if held {
            corrected.expect("a second before")
        } else {
            recorded
        };
        climb += (now - corrected.unwrap_or(now)).max(0);
        corrected = Some(now);
        before = Some(recorded);
    }
    climb
}
