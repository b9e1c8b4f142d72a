//! "The printed case": what the program prints.

use crate::numbers::{Plan, Refusal};
use crate::rules::{Rules, Slip};
use crate::second::TripLanes;
use crate::stream::{read, StreamLanes};
use crate::trip::{evaluate, LentLanes, TripAnswer};

/// The places of the lanes of the program: "no lane of it passes 64 KiB".
const PLACES: usize = 8_192;

/// "Line 1: all seconds, missing, kept; line 2: windows, unclassed ones too, and moves. Class lines:
/// windows, windows inside. Reasons: four lower-case hex digits."
pub fn report(rules: &Rules, answer: &TripAnswer) -> String {
    let printed = &rules.printed;
    let first = [answer.seconds, answer.missing, answer.kept];
    let [seconds, missing, kept] = printed.line_1.map(|figure| first[figure]);
    let second = [answer.windows, answer.moves];
    let [windows, moves] = printed.line_2.map(|figure| second[figure]);
    let mut text = format!("seconds {seconds} missing {missing} kept {kept}\n");
    text += &format!("windows {windows} moves {moves}\n");
    for (name, which) in ["urban", "rural", "motorway"].iter().zip(printed.classes) {
        let class = &answer.classes[which];
        let figures = [class.windows, class.inside];
        let [windows, inside] = printed.class_line.map(|figure| figures[figure]);
        text += &format!("{name} {windows} {inside}\n");
    }
    text += &match rules.slip {
        Some(Slip::ReasonsInCapitals) => format!("reasons {:04X}\n", answer.reasons),
        Some(Slip::ReasonsWithoutLeadingZeros) => format!("reasons {:x}\n", answer.reasons),
        Some(Slip::ReasonsInDecimal) => format!("reasons {:04}\n", answer.reasons),
        _ => format!("reasons {:04x}\n", answer.reasons),
    };
    text
}

/// "A refusal prints only `refused R at P`."
pub fn report_refusal(rules: &Rules, refusal: &Refusal) -> String {
    if rules.slips(Slip::PlaceBeforeTheNumber) {
        return format!("refused {} at {}\n", refusal.place, refusal.number);
    }
    format!("refused {} at {}\n", refusal.number, refusal.place)
}

/// The answer to a whole stream, or the stream's refusal, or else the trip's.
pub fn evaluate_stream(rules: &Rules, bytes: &[u8]) -> Result<TripAnswer, Refusal> {
    let mut states = vec![0; PLACES];
    let mut speeds = vec![0; PLACES];
    let mut altitudes = vec![0; PLACES];
    let mut co2 = vec![0; PLACES];
    let mut nox = vec![0; PLACES];
    let mut lanes = StreamLanes {
        states: &mut states,
        speeds: &mut speeds,
        altitudes: &mut altitudes,
        co2: &mut co2,
        nox: &mut nox,
    };
    let answer = read(rules, bytes, &mut lanes)?;
    let trip = TripLanes {
        states: &states[..answer.seconds],
        speeds: &speeds[..answer.seconds],
        altitudes: &altitudes[..answer.seconds],
        co2: &co2[..answer.seconds],
        nox: &nox[..answer.seconds],
    };
    evaluate_lanes(rules, &answer.plan, trip)
}

/// The answer to a plan and lanes, with the program's own lanes lent.
fn evaluate_lanes(rules: &Rules, plan: &Plan, trip: TripLanes) -> Result<TripAnswer, Refusal> {
    let mut lent = LentLanes {
        kept_speeds: &mut [0; PLACES],
        kept_co2: &mut [0; PLACES],
        ends: &mut [0; PLACES],
        ranks: &mut [0; PLACES],
    };
    evaluate(rules, plan, trip, &mut lent)
}

/// What is printed for an answer or a refusal.
fn printed(rules: &Rules, answer: Result<TripAnswer, Refusal>) -> String {
    match answer {
        Ok(answer) => report(rules, &answer),
        Err(refusal) => report_refusal(rules, &refusal),
    }
}

/// What the program prints for a stream.
pub fn judge(rules: &Rules, bytes: &[u8]) -> String {
    printed(rules, evaluate_stream(rules, bytes))
}

/// What it prints for the stream of a plan and lanes.
pub fn judge_lanes(rules: &Rules, plan: &Plan, trip: TripLanes) -> String {
    printed(rules, evaluate_lanes(rules, plan, trip))
}
