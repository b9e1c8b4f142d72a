//! Inputs chosen so that each sentence of the paper shows in an answer: the ends of every range,
//! pairs of refusals, every kind of item, sweeps cut and resumed, and figures on each border.
//!
//! A frozen set is made of those that tell a wrong reading, and of the pairs of `borders`. Of a call
//! that came after the set was frozen all of them are compared, until the next set has it.

mod calls;
mod masses;
mod refusals;
mod streams;
mod trips;
mod writes;

use std::mem::discriminant;

pub use streams::{plans_at_ends, seconds_at_ends, PLAN};

use crate::borders::{pairs, Pair, Trip};
use crate::case::{Case, TripInput};
use crate::frozen::Frozen;
use crate::lanes::Lanes;
use crate::random::Random;

/// A call with the name under which its answer is kept.
pub struct Named {
    pub name: String,
    pub case: Case,
}

/// The small inputs that a set is chosen from, the same in every run.
pub fn small() -> Vec<Named> {
    let mut random = Random::new(2017_1154);
    let mut all = Chosen::default();
    streams::add(&mut all);
    masses::add(&mut all, &mut random);
    calls::add(&mut all, &mut random);
    refusals::add(&mut all);
    trips::add(&mut all, &mut random);
    // Last, so that what tells the readings of the other calls stays theirs.
    writes::add(&mut all);
    all.cases
}

/// Of the small inputs those of a call that a set has none of: the product gained it after the set
/// was frozen.
pub fn since(set: &[Frozen]) -> Vec<Named> {
    let frozen: Vec<_> = set.iter().map(|call| discriminant(&call.case)).collect();
    let mut gained = small();
    gained.retain(|named| !frozen.contains(&discriminant(&named.case)));
    number(&mut gained);
    gained
}

/// Gives each of the calls its number behind its name.
pub fn number(calls: &mut [Named]) {
    for (number, named) in calls.iter_mut().enumerate() {
        named.name = format!("{}, {}", named.name, number + 1);
    }
}

/// The pairs of trips on either side of each border, as calls.
pub fn on_borders() -> Vec<Named> {
    pairs().into_iter().flat_map(both_sides).collect()
}

/// The two sides of a pair; a pair of a reason is printed by the program too.
pub fn both_sides(pair: Pair) -> [Named; 2] {
    let sides = [("within", pair.within), ("beyond", pair.beyond)];
    sides.map(|(side, trip)| Named {
        name: format!("{}, {side}", pair.name),
        case: whole(&trip, pair.reason.is_some()),
    })
}

/// The evaluation of a trip, with a place per second.
fn whole(trip: &Trip, printed: bool) -> Case {
    Case::Trip(TripInput {
        plan: trip.plan,
        trip: Lanes::of(&trip.seconds),
        places: [trip.seconds.len(); 4],
        printed,
    })
}

/// Calls while they are gathered, each named for what it is about.
#[derive(Default)]
struct Chosen {
    cases: Vec<Named>,
}

impl Chosen {
    fn add(&mut self, about: &str, case: Case) {
        let name = about.to_string();
        self.cases.push(Named { name, case });
    }
}
