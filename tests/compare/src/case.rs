//! One call of the product with its input, answered by both sides.

use library::probe::WindowProbe;
use library::{
    AccelerationAnswer, Bin, Class, ItemAnswer, MassAnswer, PercentileAnswer, ReadAnswer,
    SweepAnswer, SweepState, Tally, TripAnswer, WriteAnswer,
};
use oracle::numbers::ACCEPTED;
use oracle::{dynamics, item, mass, stream, trip, windows, writer, Plan, Refusal, Rules};

use crate::lanes::{answer_by_paper, plan_of, Buffer, Lanes, Lent};
use crate::program;
use crate::streams;

/// What a mass call takes.
#[derive(Clone, Copy, Debug)]
pub struct MassInput {
    pub kind: u8,
    pub value: f64,
    pub u: f64,
    pub factor: f64,
    pub flow: f64,
}

/// What a call of the sweep takes; no end is as large as the guards in the lane.
#[derive(Clone, Debug)]
pub struct SweepInput {
    pub reference: u32,
    pub co2: Vec<u32>,
    pub places: usize,
    pub state: SweepState,
    pub budget: u64,
}

/// What an evaluation takes.
#[derive(Clone, Debug)]
pub struct TripInput {
    pub plan: Plan,
    pub trip: Lanes,
    /// Of kept speeds, kept CO2, ends, ranks.
    pub places: [usize; 4],
    /// Whether the program prints it too, from its stream.
    pub printed: bool,
}

/// What a call of the writer takes.
#[derive(Clone, Debug)]
pub struct WriteInput {
    pub plan: Plan,
    pub trip: Lanes,
    /// Of the buffer.
    pub places: usize,
}

/// A call.
#[derive(Clone, Debug)]
pub enum Case {
    /// Both scales.
    Mass(MassInput),
    Item(Vec<u8>),
    Read {
        bytes: Vec<u8>,
        places: [usize; 5],
    },
    /// The same stream in blocks of a length.
    Blocks {
        bytes: Vec<u8>,
        length: usize,
        places: [usize; 5],
    },
    Write(WriteInput),
    Sweep(SweepInput),
    D {
        trip: Lanes,
        index: usize,
    },
    Percentile {
        products: Vec<u32>,
        places: usize,
    },
    /// S, N and Q or T, of any size: too lively, too dull.
    Dynamics {
        s: u32,
        n: u32,
        x: u64,
    },
    /// A window of these sums.
    Window {
        plan: Plan,
        s: u32,
        m: u32,
        n: usize,
    },
    Trip(TripInput),
    Printed(Vec<u8>),
}

/// The answer to a call, with every place of every lane that it was lent.
#[derive(Clone, Debug, PartialEq)]
pub enum Answer {
    Mass(MassAnswer, MassAnswer),
    Item(ItemAnswer),
    Read(ReadAnswer, Lanes),
    Write(WriteAnswer, Buffer),
    Sweep(SweepAnswer, Vec<u16>),
    D(AccelerationAnswer),
    Percentile(PercentileAnswer, Vec<u32>),
    Dynamics { lively: bool, dull: bool },
    Window(WindowProbe),
    Trip(Box<TripAnswer>, Lent, Option<String>),
    Printed(String),
}

/// What the caller left in a lane.
const GUARD_16: u16 = 0xa5a5;
const GUARD_32: u32 = 0xa5a5_a5a5;

/// The number beside the classes that the library gives a window without one.
const UNCLASSED: usize = 3;

impl Case {
    /// What the library, or the program, answers.
    pub fn by_library(&self) -> Answer {
        match self {
            Case::Mass(input) => mass_by_library(input),
            Case::Item(bytes) => Answer::Item(library::item(bytes)),
            Case::Read { bytes, places } => {
                let mut lanes = Lanes::guarded(*places);
                let answer = library::read(bytes, lanes.lent());
                Answer::Read(answer, lanes)
            }
            Case::Blocks {
                bytes,
                length,
                places,
            } => {
                let mut lanes = Lanes::guarded(*places);
                let answer = fed_to_library(bytes.chunks(*length), &mut lanes);
                Answer::Read(answer, lanes)
            }
            Case::Write(input) => write_by_library(input),
            Case::Sweep(input) => {
                let mut ends = vec![GUARD_16; input.places];
                let (state, budget) = (input.state, input.budget);
                let answer = library::sweep(input.reference, &input.co2, &mut ends, state, budget);
                Answer::Sweep(answer, ends)
            }
            Case::D { trip, index } => Answer::D(library::acceleration(trip.trip(), *index)),
            Case::Percentile { products, places } => {
                let mut ranks = vec![GUARD_32; *places];
                let answer = library::percentile(products, &mut ranks);
                Answer::Percentile(answer, ranks)
            }
            &Case::Dynamics { s, n, x } => Answer::Dynamics {
                lively: library::probe::too_lively(s, n, x),
                dull: library::probe::too_dull(s, n, x),
            },
            Case::Window { plan, s, m, n } => {
                Answer::Window(library::probe::window(plan_of(plan), *s, *m, *n))
            }
            Case::Trip(input) => trip_by_library(input),
            Case::Printed(bytes) => Answer::Printed(program::printed(bytes)),
        }
    }

    /// What the independent program answers by these rules.
    pub fn by_paper(&self, rules: &Rules) -> Answer {
        match self {
            Case::Mass(input) => mass_by_paper(rules, input),
            Case::Item(bytes) => Answer::Item(item_by_paper(rules, bytes)),
            Case::Read { bytes, places } => {
                let mut lanes = Lanes::guarded(*places);
                let read = stream::read(rules, bytes, &mut lanes.lent_on_paper());
                let read = read.map(|found| (found.plan, found.seconds));
                Answer::Read(answer_by_paper(read), lanes)
            }
            Case::Blocks { bytes, places, .. } => {
                let mut lanes = Lanes::guarded(*places);
                let read = stream::read_in_blocks(rules, bytes, &mut lanes.lent_on_paper());
                let read = read.map(|found| (found.plan, found.seconds));
                Answer::Read(answer_by_paper(read), lanes)
            }
            Case::Write(input) => write_by_paper(rules, input),
            Case::Sweep(input) => sweep_by_paper(rules, input),
            Case::D { trip, index } => {
                let found = dynamics::d_of_second(rules, trip.trip_on_paper(), *index);
                Answer::D(d_of_paper(found))
            }
            Case::Percentile { products, places } => {
                let mut ranks = vec![GUARD_32; *places];
                let found = dynamics::percentile(rules, products, &mut ranks);
                Answer::Percentile(percentile_of_paper(found), ranks)
            }
            &Case::Dynamics { s, n, x } => {
                let (s, n, x) = (s.into(), n.into(), x.into());
                Answer::Dynamics {
                    lively: dynamics::too_lively(rules, s, n, x),
                    dull: dynamics::too_dull(rules, s, n, x),
                }
            }
            Case::Window { plan, s, m, n } => {
                Answer::Window(window_by_paper(rules, plan, *s, *m, *n))
            }
            Case::Trip(input) => trip_by_paper(rules, input),
            Case::Printed(bytes) => Answer::Printed(oracle::report::judge(rules, bytes)),
        }
    }
}

impl Answer {
    /// The verdict of a trip that was judged.
    pub fn verdict(&self) -> Option<u16> {
        match self {
            Answer::Trip(answer, ..) if answer.refusal == 0 => Some(answer.verdict),
            _ => None,
        }
    }

    /// The windows inside of a trip, of all classes.
    pub fn inside(&self) -> u32 {
        match self {
            Answer::Trip(answer, ..) => answer.classes.iter().map(|class| class.inside).sum(),
            _ => 0,
        }
    }
}

/// The library's answer to a stream that comes in these blocks.
pub fn fed_to_library<'a>(blocks: impl Iterator<Item = &'a [u8]>, lanes: &mut Lanes) -> ReadAnswer {
    let mut reader = library::start();
    for block in blocks {
        let fed = library::feed(reader, block, lanes.lent());
        assert_eq!(fed.refusal, 0, "a reader that the calls made");
        reader = fed.reader;
    }
    library::end(reader)
}

fn mass_by_library(input: &MassInput) -> Answer {
    let setting = library::Setting {
        u: input.u,
        factor: input.factor,
        flow: input.flow,
    };
    let (kind, value) = (input.kind, input.value);
    let co2 = library::mass_co2(kind, value, setting);
    Answer::Mass(co2, library::mass_nox(kind, value, setting))
}

fn mass_by_paper(rules: &Rules, input: &MassInput) -> Answer {
    let setting = mass::Setting {
        u: input.u,
        factor: input.factor,
        flow: input.flow,
    };
    let reading = mass::Reading::of_kind(rules, input.kind, input.value);
    let co2 = reading.and_then(|r| mass::co2_mass(rules, r, setting));
    let nox = reading.and_then(|r| mass::nox_mass(rules, r, setting));
    Answer::Mass(mass_of_paper(co2), mass_of_paper(nox))
}

fn mass_of_paper(found: Result<u32, Refusal>) -> MassAnswer {
    match found {
        Ok(mass) => MassAnswer {
            refusal: 0,
            mass,
            place: 0,
        },
        Err(refusal) => MassAnswer {
            refusal: refusal.number,
            mass: 0,
            place: refusal.place,
        },
    }
}

fn item_by_paper(rules: &Rules, bytes: &[u8]) -> ItemAnswer {
    let mut answer = ItemAnswer::default();
    match item::item(rules, bytes) {
        Err(refusal) => {
            answer.refusal = refusal.number;
            answer.place = refusal.place;
        }
        Ok((found, length)) => {
            answer.kind = bytes[0];
            answer.length = length;
            match found {
                item::Item::Plan(plan) => answer.plan = plan_of(&plan),
                item::Item::Second(second) => {
                    answer.speed = second.speed;
                    answer.altitude = second.altitude;
                    answer.co2 = second.co2;
                    answer.nox = second.nox;
                }
            }
        }
    }
    answer
}

fn write_by_library(input: &WriteInput) -> Answer {
    let mut buffer = Buffer::guarded(input.places);
    let answer = library::write(plan_of(&input.plan), input.trip.trip(), buffer.lent());
    Answer::Write(answer, buffer)
}

fn write_by_paper(rules: &Rules, input: &WriteInput) -> Answer {
    let mut buffer = Buffer::guarded(input.places);
    let trip = input.trip.trip_on_paper();
    let found = writer::write(rules, &input.plan, trip, buffer.lent());
    let refusal = found.refusal.unwrap_or(Refusal::new(ACCEPTED));
    let answer = WriteAnswer {
        refusal: refusal.number,
        place: refusal.place,
        bytes: found.bytes,
    };
    Answer::Write(answer, buffer)
}

fn sweep_by_paper(rules: &Rules, input: &SweepInput) -> Answer {
    let mut ends = vec![GUARD_16; input.places];
    let (co2, reference) = (&input.co2[..], input.reference);
    let state = windows::SweepState {
        taken: input.state.taken,
        dropped: input.state.dropped,
        mass: input.state.mass,
        moves: input.state.moves,
    };
    let found = windows::sweep(rules, co2, &mut ends, reference, state, input.budget);
    let answer = match found {
        Ok(answer) => SweepAnswer {
            refusal: 0,
            place: 0,
            state: SweepState {
                taken: answer.state.taken,
                dropped: answer.state.dropped,
                mass: answer.state.mass,
                moves: answer.state.moves,
            },
            moves: answer.moves,
            over: windows::one_move(rules, co2, reference, answer.state).is_none(),
        },
        Err(refusal) => SweepAnswer {
            refusal: refusal.number,
            place: refusal.place,
            ..SweepAnswer::default()
        },
    };
    Answer::Sweep(answer, ends)
}

fn d_of_paper(found: Result<Option<i128>, Refusal>) -> AccelerationAnswer {
    let mut answer = AccelerationAnswer::default();
    match found {
        Err(refusal) => {
            answer.refusal = refusal.number;
            answer.place = refusal.place;
        }
        Ok(None) => {}
        Ok(Some(d)) => {
            answer.has_d = true;
            answer.rise = d.max(0) as u16;
            answer.fall = (-d).max(0) as u16;
        }
    }
    answer
}

fn percentile_of_paper(found: Result<i128, Refusal>) -> PercentileAnswer {
    let mut answer = PercentileAnswer::default();
    match found {
        Ok(q) => answer.q = q as u64,
        Err(refusal) => {
            answer.refusal = refusal.number;
            answer.place = refusal.place;
        }
    }
    answer
}

/// The most seconds of a window that the probe judges since release 2.
pub const WINDOW_MOST: u64 = 32_768;

/// Whether the probe judges a window of these sums, if the plan is in range. It takes any sums of which
/// there can be a window, and a window has at least 1 mg; for release 1 it took any mass, and of the
/// others what a trip of 8,192 seconds can have.
fn is_probed(rules: &Rules, s: u32, m: u32, n: usize) -> bool {
    if rules.release == 1 {
        return (1..=8_192).contains(&n) && (1..=8_192 * 25_000).contains(&s);
    }
    (1..=WINDOW_MOST as usize).contains(&n) && s >= 1 && m >= 1
}

fn window_by_paper(rules: &Rules, plan: &Plan, s: u32, m: u32, n: usize) -> WindowProbe {
    if !plan.in_range(rules) || !is_probed(rules, s, m, n) {
        return WindowProbe::default();
    }
    let found = windows::figures_of_sums(rules, plan, s.into(), m.into(), n as i128);
    WindowProbe {
        judged: true,
        inside: found.inside,
        class: found.class.unwrap_or(UNCLASSED),
    }
}

fn trip_by_library(input: &TripInput) -> Answer {
    let mut lent = Lent::guarded(input.places);
    let answer = library::evaluate(plan_of(&input.plan), input.trip.trip(), lent.lent());
    let printed = |bytes: Vec<u8>| program::printed(&bytes);
    Answer::Trip(Box::new(answer), lent, stream_of(input).map(printed))
}

fn trip_by_paper(rules: &Rules, input: &TripInput) -> Answer {
    let mut lent = Lent::guarded(input.places);
    let trip = input.trip.trip_on_paper();
    let answer = match trip::evaluate(rules, &input.plan, trip, &mut lent.lent_on_paper()) {
        Ok(answer) => trip_of_paper(&answer),
        Err(refusal) => TripAnswer {
            refusal: refusal.number,
            place: refusal.place,
            ..TripAnswer::default()
        },
    };
    let printed = |bytes: Vec<u8>| oracle::report::judge(rules, &bytes);
    Answer::Trip(Box::new(answer), lent, stream_of(input).map(printed))
}

/// The trip as the stream that the program reads, where it is asked to print.
fn stream_of(input: &TripInput) -> Option<Vec<u8>> {
    let bytes = || streams::of_trip(&input.plan, &input.trip.seconds());
    input.printed.then(bytes)
}

fn trip_of_paper(answer: &trip::TripAnswer) -> TripAnswer {
    TripAnswer {
        refusal: 0,
        place: 0,
        seconds: answer.seconds as u32,
        missing: answer.missing as u32,
        kept: answer.kept as u32,
        windows: answer.windows as u32,
        moves: answer.moves as u32,
        bins: answer.bins.map(|bin| Bin {
            seconds: bin.tally.seconds as u32,
            distance: bin.tally.distance as u32,
            co2: bin.tally.co2 as u64,
            nox: bin.tally.nox as u64,
            m: bin.m as u32,
            t: bin.t as u64,
            q: bin.q as u64,
        }),
        total: Tally {
            seconds: answer.total.seconds as u32,
            distance: answer.total.distance as u32,
            co2: answer.total.co2 as u64,
            nox: answer.total.nox as u64,
        },
        climb: answer.climb as u64,
        classes: answer.classes.map(|class| Class {
            windows: class.windows as u32,
            inside: class.inside as u32,
        }),
        verdict: answer.reasons,
    }
}
