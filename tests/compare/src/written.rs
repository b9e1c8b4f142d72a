//! A call and its answer as lines of text, and the call read back: what a frozen set is written in.

use library::probe::WindowProbe;
use library::{
    AccelerationAnswer, ItemAnswer, MassAnswer, PercentileAnswer, ReadAnswer, SweepAnswer,
    SweepState, TripAnswer, WriteAnswer,
};
use oracle::Plan;

use crate::case::{Answer, Case, MassInput, SweepInput, TripInput, WriteInput};
use crate::lanes::{Buffer, Lanes, Lent};
use crate::runs::{answer_text, lane_of, text_of};

/// A word, and a lane in runs; an empty lane is the word alone.
fn lane_line(word: &str, lane: String) -> String {
    format!("{word} {lane}").trim_end().to_string()
}

/// Numbers with blanks between them.
fn numbers<T: ToString>(all: &[T]) -> String {
    let words: Vec<String> = all.iter().map(T::to_string).collect();
    words.join(" ")
}

fn plan_words(plan: &Plan) -> String {
    let numbers_of_4 = numbers(&[plan.reference, plan.e1, plan.e2, plan.e3]);
    format!("{numbers_of_4} {} {}", plan.lower, numbers(&plan.upper))
}

fn lanes_lines(lanes: &Lanes) -> Vec<String> {
    vec![
        lane_line("states", text_of(&lanes.states)),
        lane_line("speeds", text_of(&lanes.speeds)),
        lane_line("altitudes", text_of(&lanes.altitudes)),
        lane_line("co2", text_of(&lanes.co2)),
        lane_line("nox", text_of(&lanes.nox)),
    ]
}

impl Case {
    /// The call as lines, each a word and what it has.
    pub fn lines(&self) -> Vec<String> {
        match self {
            Case::Mass(input) => {
                let bits = [input.value, input.u, input.factor, input.flow].map(f64::to_bits);
                let bits = bits.map(|bits| format!("{bits:016x}"));
                let shown = [input.value, input.u, input.factor, input.flow];
                vec![
                    "call mass".to_string(),
                    format!("kind {}", input.kind),
                    format!("bits {}", bits.join(" ")),
                    format!("that is {shown:?}"),
                ]
            }
            Case::Item(bytes) => vec!["call item".to_string(), bytes_line(bytes)],
            Case::Read { bytes, places } => vec![
                "call read".to_string(),
                bytes_line(bytes),
                format!("places {}", numbers(places)),
            ],
            Case::Blocks {
                bytes,
                length,
                places,
            } => vec![
                "call blocks".to_string(),
                bytes_line(bytes),
                format!("length {length}"),
                format!("places {}", numbers(places)),
            ],
            Case::Write(input) => write_lines(input),
            Case::Sweep(input) => sweep_lines(input),
            Case::D { trip, index } => {
                let mut lines = vec!["call d".to_string(), format!("index {index}")];
                lines.extend(lanes_lines(trip));
                lines
            }
            Case::Percentile { products, places } => vec![
                "call percentile".to_string(),
                lane_line("products", text_of(products)),
                format!("places {places}"),
            ],
            Case::Dynamics { s, n, x } => {
                vec!["call dynamics".to_string(), format!("sums {s} {n} {x}")]
            }
            Case::Window { plan, s, m, n } => vec![
                "call window".to_string(),
                format!("plan {}", plan_words(plan)),
                format!("sums {s} {m} {n}"),
            ],
            Case::Trip(input) => trip_lines(input),
            Case::Printed(bytes) => vec!["call program".to_string(), bytes_line(bytes)],
        }
    }

    /// The call of such lines; none where they are no call.
    pub fn of_lines(lines: &[&str]) -> Option<Case> {
        let of = |word: &str| {
            let mut all = lines.iter().filter_map(|line| line.split_once(' '));
            all.find(|(first, _)| *first == word).map(|(_, rest)| rest)
        };
        let empty = |word: &str| lines.contains(&word).then_some("");
        let lane = |word: &str| of(word).or_else(|| empty(word));
        let lanes = || {
            Some(Lanes {
                states: lane_of(lane("states")?)?,
                speeds: lane_of(lane("speeds")?)?,
                altitudes: lane_of(lane("altitudes")?)?,
                co2: lane_of(lane("co2")?)?,
                nox: lane_of(lane("nox")?)?,
            })
        };
        let bytes = || lane_of(lane("bytes")?);
        Some(match of("call")? {
            "mass" => mass_of(of("kind")?, of("bits")?)?,
            "item" => Case::Item(bytes()?),
            "read" => Case::Read {
                bytes: bytes()?,
                places: array_of(of("places")?)?,
            },
            "blocks" => Case::Blocks {
                bytes: bytes()?,
                length: of("length")?.parse().ok()?,
                places: array_of(of("places")?)?,
            },
            "write" => Case::Write(WriteInput {
                plan: plan_of_words(of("plan")?)?,
                trip: lanes()?,
                places: of("places")?.parse().ok()?,
            }),
            "sweep" => {
                let [taken, dropped, mass, moves] = array_of(of("state")?)?;
                Case::Sweep(SweepInput {
                    reference: of("reference")?.parse().ok()?,
                    co2: lane_of(lane("co2")?)?,
                    places: of("places")?.parse().ok()?,
                    state: SweepState {
                        taken,
                        dropped,
                        mass,
                        moves,
                    },
                    budget: of("budget")?.parse().ok()?,
                })
            }
            "d" => Case::D {
                trip: lanes()?,
                index: of("index")?.parse().ok()?,
            },
            "percentile" => Case::Percentile {
                products: lane_of(lane("products")?)?,
                places: of("places")?.parse().ok()?,
            },
            "dynamics" => {
                let [s, n, x] = array_of::<u64, 3>(of("sums")?)?;
                Case::Dynamics {
                    s: s.try_into().ok()?,
                    n: n.try_into().ok()?,
                    x,
                }
            }
            "window" => {
                let [s, m, n] = array_of::<u64, 3>(of("sums")?)?;
                Case::Window {
                    plan: plan_of_words(of("plan")?)?,
                    s: s.try_into().ok()?,
                    m: m.try_into().ok()?,
                    n: n.try_into().ok()?,
                }
            }
            "trip" => Case::Trip(TripInput {
                plan: plan_of_words(of("plan")?)?,
                trip: lanes()?,
                places: array_of(of("places")?)?,
                printed: of("printed")? == "too",
            }),
            "program" => Case::Printed(bytes()?),
            _ => return None,
        })
    }
}

fn bytes_line(bytes: &[u8]) -> String {
    lane_line("bytes", text_of(bytes))
}

/// A plan and the lanes of a trip, which a call takes.
fn plan_and_lanes_lines(call: &str, plan: &Plan, trip: &Lanes) -> Vec<String> {
    let mut lines = vec![format!("call {call}"), format!("plan {}", plan_words(plan))];
    lines.extend(lanes_lines(trip));
    lines
}

fn write_lines(input: &WriteInput) -> Vec<String> {
    let mut lines = plan_and_lanes_lines("write", &input.plan, &input.trip);
    lines.push(format!("places {}", input.places));
    lines
}

fn sweep_lines(input: &SweepInput) -> Vec<String> {
    vec![
        "call sweep".to_string(),
        format!("reference {}", input.reference),
        lane_line("co2", text_of(&input.co2)),
        format!("places {}", input.places),
        format!("state {}", state_words(&input.state)),
        format!("budget {}", input.budget),
    ]
}

fn state_words(state: &SweepState) -> String {
    numbers(&[state.taken, state.dropped, state.mass, state.moves])
}

fn trip_lines(input: &TripInput) -> Vec<String> {
    let mut lines = plan_and_lanes_lines("trip", &input.plan, &input.trip);
    lines.push(format!("places {}", numbers(&input.places)));
    let printed = if input.printed { "too" } else { "not" };
    lines.push(format!("printed {printed}"));
    lines
}

fn array_of<T: std::str::FromStr, const N: usize>(text: &str) -> Option<[T; N]> {
    let all: Option<Vec<T>> = text.split(' ').map(|word| word.parse().ok()).collect();
    all?.try_into().ok()
}

fn plan_of_words(text: &str) -> Option<Plan> {
    let [reference, e1, e2, e3, tolerances @ ..] = array_of::<u32, 8>(text)?;
    let [lower, urban, rural, motorway] = tolerances.map(|tolerance| u8::try_from(tolerance).ok());
    Some(Plan {
        reference,
        e1,
        e2,
        e3,
        lower: lower?,
        upper: [urban?, rural?, motorway?],
    })
}

fn mass_of(kind: &str, bits: &str) -> Option<Case> {
    let bits: Option<Vec<u64>> = bits
        .split(' ')
        .map(|word| u64::from_str_radix(word, 16).ok())
        .collect();
    let [value, u, factor, flow] = <[u64; 4]>::try_from(bits?).ok()?.map(f64::from_bits);
    Some(Case::Mass(MassInput {
        kind: kind.parse().ok()?,
        value,
        u,
        factor,
        flow,
    }))
}

impl Answer {
    /// The answer as lines.
    pub fn lines(&self) -> Vec<String> {
        match self {
            Answer::Mass(co2, nox) => vec![mass_line("co2", co2), mass_line("nox", nox)],
            Answer::Item(answer) => item_lines(answer),
            Answer::Read(answer, lanes) => read_lines(answer, lanes),
            Answer::Write(answer, buffer) => written_lines(answer, buffer),
            Answer::Sweep(answer, ends) => swept_lines(answer, ends),
            Answer::D(answer) => vec![d_line(answer)],
            Answer::Percentile(answer, ranks) => percentile_lines(answer, ranks),
            Answer::Dynamics { lively, dull } => vec![format!("lively {lively} dull {dull}")],
            Answer::Window(window) => vec![window_line(window)],
            Answer::Trip(answer, lent, printed) => evaluated_lines(answer, lent, printed),
            Answer::Printed(text) => printed_lines(text),
        }
    }
}

fn refusal_words(number: u8, place: usize) -> String {
    match number {
        0 => "accepted".to_string(),
        number => format!("refused {number} at {place}"),
    }
}

fn mass_line(scale: &str, answer: &MassAnswer) -> String {
    let refusal = refusal_words(answer.refusal, answer.place);
    format!("{scale} {refusal} mass {}", answer.mass)
}

fn library_plan_words(plan: &library::Plan) -> String {
    let of_4 = numbers(&[plan.reference, plan.e1, plan.e2, plan.e3]);
    let tolerances = numbers(&[plan.lower, plan.urban, plan.rural, plan.motorway]);
    format!("plan {of_4} {tolerances}")
}

fn item_lines(answer: &ItemAnswer) -> Vec<String> {
    vec![
        refusal_words(answer.refusal, answer.place),
        format!("kind {} length {}", answer.kind, answer.length),
        format!(
            "speed {} altitude {} co2 {} nox {}",
            answer.speed, answer.altitude, answer.co2, answer.nox
        ),
        library_plan_words(&answer.plan),
    ]
}

fn read_lines(answer: &ReadAnswer, lanes: &Lanes) -> Vec<String> {
    vec![
        refusal_words(answer.refusal, answer.place),
        format!("seconds {}", answer.seconds),
        library_plan_words(&answer.plan),
        lane_line("states", answer_text(&lanes.states)),
        lane_line("speeds", answer_text(&lanes.speeds)),
        lane_line("altitudes", answer_text(&lanes.altitudes)),
        lane_line("co2", answer_text(&lanes.co2)),
        lane_line("nox", answer_text(&lanes.nox)),
    ]
}

fn written_lines(answer: &WriteAnswer, buffer: &Buffer) -> Vec<String> {
    vec![
        refusal_words(answer.refusal, answer.place),
        format!("written {}", answer.bytes),
        lane_line("buffer", answer_text(buffer.bytes())),
    ]
}

fn swept_lines(answer: &SweepAnswer, ends: &[u16]) -> Vec<String> {
    vec![
        refusal_words(answer.refusal, answer.place),
        format!("state {}", state_words(&answer.state)),
        format!("moves {} over {}", answer.moves, answer.over),
        lane_line("ends", answer_text(ends)),
    ]
}

fn d_line(answer: &AccelerationAnswer) -> String {
    let refusal = refusal_words(answer.refusal, answer.place);
    let (rise, fall) = (answer.rise, answer.fall);
    format!("{refusal} has D {} rise {rise} fall {fall}", answer.has_d)
}

fn percentile_lines(answer: &PercentileAnswer, ranks: &[u32]) -> Vec<String> {
    vec![
        refusal_words(answer.refusal, answer.place),
        format!("q {}", answer.q),
        lane_line("ranks", answer_text(ranks)),
    ]
}

fn window_line(window: &WindowProbe) -> String {
    format!("class {} inside {}", window.class, window.inside)
}

const ROADS: [&str; 3] = ["urban", "rural", "motorway"];

fn evaluated_lines(answer: &TripAnswer, lent: &Lent, printed: &Option<String>) -> Vec<String> {
    let mut lines = vec![
        refusal_words(answer.refusal, answer.place),
        format!(
            "seconds {} missing {} kept {} windows {} moves {}",
            answer.seconds, answer.missing, answer.kept, answer.windows, answer.moves
        ),
    ];
    for (road, bin) in ROADS.iter().zip(&answer.bins) {
        lines.push(format!(
            "{road} seconds {} distance {} co2 {} nox {} m {} t {} q {}",
            bin.seconds, bin.distance, bin.co2, bin.nox, bin.m, bin.t, bin.q
        ));
    }
    let total = &answer.total;
    lines.push(format!(
        "total seconds {} distance {} co2 {} nox {} climb {}",
        total.seconds, total.distance, total.co2, total.nox, answer.climb
    ));
    for (road, class) in ROADS.iter().zip(&answer.classes) {
        lines.push(format!(
            "{road} windows {} inside {}",
            class.windows, class.inside
        ));
    }
    lines.push(format!("verdict {:04x}", answer.verdict));
    lines.push(lane_line("kept speeds", answer_text(&lent.kept_speeds)));
    lines.push(lane_line("kept co2", answer_text(&lent.kept_co2)));
    lines.push(lane_line("ends", answer_text(&lent.ends)));
    lines.push(lane_line("ranks", answer_text(&lent.ranks)));
    lines.extend(printed.iter().flat_map(|text| printed_lines(text)));
    lines
}

fn printed_lines(text: &str) -> Vec<String> {
    text.lines().map(|line| format!("| {line}")).collect()
}

#[cfg(test)]
mod tests {
    use super::Case;
    use crate::chosen;

    #[test]
    fn each_chosen_call_there_and_back() {
        for named in chosen::small() {
            let lines = named.case.lines();
            let words: Vec<&str> = lines.iter().map(String::as_str).collect();
            let back = Case::of_lines(&words).map(|case| case.lines());
            assert_eq!(back.as_ref(), Some(&lines), "{}", named.name);
        }
    }
}
