//! Lanes as text: runs of numbers, each `7` (one number), `7x20` (the same number twenty times) or
//! `7+3x20` (twenty numbers, each 3 above the one before), and `( .. )x66` for runs that repeat.

use std::fmt::Write;

/// `count` numbers from `start` on, each `step` above the one before.
#[derive(Clone, Copy, Debug, PartialEq, Eq)]
struct Run {
    start: i64,
    step: i64,
    count: usize,
}

/// The longest group of runs that is looked for.
const LONGEST_GROUP: usize = 24;

/// The runs of a lane, from its front, each as long as it can be.
fn runs_of(lane: &[i64]) -> Vec<Run> {
    let mut runs = Vec::new();
    let mut rest = lane;
    while let [start, after @ ..] = rest {
        let step = after.first().map_or(0, |next| next - start);
        let same_step = |pair: &&[i64]| pair[1] - pair[0] == step;
        let count = 1 + rest.windows(2).take_while(same_step).count();
        // Two numbers that only happen to stand side by side are two runs.
        let count = if count == 2 && step != 0 { 1 } else { count };
        runs.push(Run {
            start: *start,
            step: if count == 1 { 0 } else { step },
            count,
        });
        rest = &rest[count..];
    }
    runs
}

impl Run {
    fn text(&self) -> String {
        match (self.step, self.count) {
            (_, 1) => format!("{}", self.start),
            (0, count) => format!("{}x{count}", self.start),
            (step, count) => format!("{}{step:+}x{count}", self.start),
        }
    }

    fn parse(text: &str) -> Option<Run> {
        let (progress, count) = text.split_once('x').unwrap_or((text, "1"));
        // A sign that is not the first character begins the step.
        let sign = progress.rfind(['+', '-']).filter(|&at| at > 0);
        let (start, step) = progress.split_at(sign.unwrap_or(progress.len()));
        let step = if step.is_empty() { "0" } else { step };
        Some(Run {
            start: start.parse().ok()?,
            step: step.parse().ok()?,
            count: count.parse().ok()?,
        })
    }

    fn numbers(self) -> impl Iterator<Item = i64> {
        (0..self.count as i64).map(move |k| self.start + k * self.step)
    }
}

/// How often the first `length` runs stand one after the other at the front.
fn repeats(runs: &[Run], length: usize) -> usize {
    let group = &runs[..length];
    runs.chunks(length)
        .take_while(|chunk| *chunk == group)
        .count()
}

/// A lane as text.
pub fn text_of<T: Copy + Into<i64>>(lane: &[T]) -> String {
    let numbers: Vec<i64> = lane.iter().map(|&number| number.into()).collect();
    let runs = runs_of(&numbers);
    let mut text = String::new();
    let mut rest = &runs[..];
    while !rest.is_empty() {
        let groups =
            (1..=LONGEST_GROUP.min(rest.len())).map(|length| (length, repeats(rest, length)));
        let (length, times) = groups
            .max_by_key(|&(length, times)| (length * (times - 1), usize::MAX - length))
            .expect("a run");
        let group: Vec<String> = rest[..length].iter().map(Run::text).collect();
        let group = group.join(" ");
        if times > 1 {
            write!(text, "({group})x{times} ").expect("a string takes all");
            rest = &rest[length * times..];
        } else {
            write!(text, "{} ", rest[0].text()).expect("a string takes all");
            rest = &rest[1..];
        }
    }
    text.trim_end().to_string()
}

/// The lane of a text; none where the text is no lane or a number does not fit.
pub fn lane_of<T: TryFrom<i64>>(text: &str) -> Option<Vec<T>> {
    let mut numbers: Vec<i64> = Vec::new();
    let mut group = 0;
    for word in text.split_whitespace() {
        let opened = word.strip_prefix('(');
        if opened.is_some() {
            group = numbers.len();
        }
        let word = opened.unwrap_or(word);
        let (run, times) = match word.split_once(')') {
            Some((run, times)) => (run, times.strip_prefix('x')?.parse().ok()?),
            None => (word, 1),
        };
        numbers.extend(Run::parse(run)?.numbers());
        let repeated = numbers[group..].to_vec();
        for _ in 1..times {
            numbers.extend(&repeated);
        }
    }
    numbers
        .into_iter()
        .map(|number| T::try_from(number).ok())
        .collect()
}

/// Places of a lane up to which an answer shows it whole.
const SHOWN: usize = 40;

/// A lane of an answer: whole where it is short, else its length and a sum over all its places.
pub fn answer_text<T: Copy + Into<i64>>(lane: &[T]) -> String {
    if lane.len() <= SHOWN {
        return text_of(lane);
    }
    // FNV-1a over the places in order, eight bytes each, lowest first.
    let mut sum = 0xcbf2_9ce4_8422_2325u64;
    for &number in lane {
        let number: i64 = number.into();
        for byte in number.to_le_bytes() {
            sum = (sum ^ u64::from(byte)).wrapping_mul(0x0000_0100_0000_01b3);
        }
    }
    format!("{} places, sum {sum:016x}", lane.len())
}

#[cfg(test)]
mod tests {
    use super::*;

    #[test]
    fn there_and_back() {
        let lanes: [&[i64]; 6] = [
            &[],
            &[-7],
            &[5, 5, 5, -5, -5, 0, 1, 2, 3],
            &[-3, -6, -9, -12, 1, -1, 1, -1, 1, -1, 1, -1],
            &[i64::from(i32::MIN), 65_535, 65_535, i64::from(u32::MAX)],
            &[0, 200, 400, 600, 0, 0, 0, 200, 400, 600, 0, 0, 9],
        ];
        for lane in lanes {
            let text = text_of(lane);
            assert_eq!(lane_of::<i64>(&text).as_deref(), Some(lane), "{text}");
        }
        assert_eq!(text_of(&[0i64, 200, 400, 600]), "0+200x4");
        assert_eq!(lane_of::<u8>("256"), None);
        assert_eq!(lane_of::<u8>("seven"), None);
    }
}
