//! The independent program's functions by the paper as it stands: release 1.

use oracle::fraction::{whole, Fraction};
use oracle::mass::{Reading, Setting};
use oracle::reasons::Figures;
use oracle::second::{Second, TripLanes};
use oracle::stream::{StreamAnswer, StreamLanes};
use oracle::trip::{LentLanes, TripAnswer};
use oracle::windows::{SweepAnswer, SweepState, WindowFigures};
use oracle::writer::WriteAnswer;
use oracle::{climb as c, dynamics as d, mass as m, trip as t, windows as w};
use oracle::{Plan, Refusal, Rules};
use std::sync::LazyLock;

static RELEASE_1: LazyLock<Rules> = LazyLock::new(|| oracle::release(1).unwrap());

pub fn paper() -> &'static Rules {
    &RELEASE_1
}

/// Each function as the tests call it, without the rules that it goes by.
macro_rules! by_the_paper {
    ($($module:ident::$name:ident($($value:ident: $kind:ty),*) -> $answer:ty;)*) => {
        $(pub fn $name($($value: $kind),*) -> $answer {
            $module::$name(paper(), $($value),*)
        })*
    };
}

by_the_paper! {
    c::is_held(change: i128, speed: i128) -> bool;
    c::corrected_altitudes(trip: TripLanes) -> Vec<Option<i128>>;
    c::climb(corrected: &[Option<i128>]) -> i128;
    d::bin(speed: u16) -> usize;
    d::d_of_second(trip: TripLanes, index: usize) -> Result<Option<i128>, Refusal>;
    d::product(speed: u16, d: i128) -> Option<i128>;
    d::products(trip: TripLanes) -> [Vec<u32>; 3];
    d::q(ranked: &[u32]) -> i128;
    d::percentile(products: &[u32], ranks: &mut [u32]) -> Result<i128, Refusal>;
    d::too_lively(s: i128, n: i128, q: i128) -> bool;
    d::too_dull(s: i128, n: i128, t: i128) -> bool;
    m::co2_mass(reading: Reading, setting: Setting) -> Result<u32, Refusal>;
    m::nox_mass(reading: Reading, setting: Setting) -> Result<u32, Refusal>;
    w::windows(kept_co2: &[u32], reference: u32) -> Vec<(usize, usize)>;
    w::end_number(last: usize) -> u16;
    w::window_figures(plan: &Plan, speeds: &[u16], co2: &[u32]) -> WindowFigures;
    w::kept(trip: TripLanes) -> (Vec<u16>, Vec<u32>);
    w::sweep(co2: &[u32], ends: &mut [u16], reference: u32, state: SweepState, budget: u64)
        -> Result<SweepAnswer, Refusal>;
    t::figures(plan: &Plan, trip: TripLanes) -> Figures;
    t::trip_windows(plan: &Plan, trip: TripLanes) -> Vec<WindowFigures>;
    t::evaluate(plan: &Plan, trip: TripLanes, lent: &mut LentLanes) -> Result<TripAnswer, Refusal>;
}

/// A figure that the paper rounds, as the whole number that it is.
fn rounded(figure: Fraction) -> i128 {
    figure.as_whole().expect("a whole number")
}

pub fn mean_speed(s: i128, n: i128) -> i128 {
    rounded(w::mean_speed(paper(), s, n))
}

pub fn class(v: i128) -> Option<usize> {
    w::class(paper(), whole(v))
}

pub fn curve(plan: &Plan, v: i128) -> i128 {
    rounded(w::curve(paper(), plan, whole(v)))
}

pub fn figure(m: i128, s: i128) -> i128 {
    rounded(w::figure(paper(), m, s))
}

pub fn is_inside(figure: i128, curve: i128, lower: u8, upper: u8) -> bool {
    w::is_inside(paper(), whole(figure), whole(curve), lower, upper)
}

pub fn reading_of_kind(kind: u8, value: f64) -> Result<Reading, Refusal> {
    Reading::of_kind(paper(), kind, value)
}

pub fn item(bytes: &[u8]) -> Result<(oracle::item::Item, usize), Refusal> {
    oracle::item::item(paper(), bytes)
}

pub fn read(bytes: &[u8], lanes: &mut StreamLanes) -> Result<StreamAnswer, Refusal> {
    oracle::stream::read(paper(), bytes, lanes)
}

pub fn write(plan: &Plan, trip: TripLanes, buffer: &mut [u8]) -> WriteAnswer {
    oracle::writer::write(paper(), plan, trip, buffer)
}

pub fn each_reason(figures: &Figures) -> [bool; 16] {
    oracle::reasons::each_reason(paper(), figures)
}

pub fn reasons(figures: &Figures) -> u16 {
    oracle::reasons::reasons(paper(), figures)
}

pub fn judge(bytes: &[u8]) -> String {
    oracle::report::judge(paper(), bytes)
}

pub fn in_range(second: &Second) -> bool {
    second.in_range(paper())
}

pub fn recorded(second: &Second) -> bool {
    second.recorded(paper())
}
