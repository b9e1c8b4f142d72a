//! What the inputs can tell: each wrong reading of the paper is answered otherwise than the right
//! one for at least one input that the build is held to: of the frozen set, or chosen for a call that
//! came after it.

use std::sync::atomic::{AtomicUsize, Ordering};
use std::thread;

use oracle::rules::NEWEST;
use oracle::wrong::{readings, Wrong, NOT_TO_BE_TOLD};
use oracle::Rules;

use crate::account::{Account, Comparison};
use crate::case::{Answer, Case};
use crate::chosen::Named;
use crate::frozen;

/// Wrong readings are tried by this many threads.
const THREADS: usize = 2;

/// A call, the right answer to it, and how dear it is to answer.
struct Tried {
    name: String,
    case: Case,
    right: Answer,
    cost: usize,
}

fn cost(case: &Case) -> usize {
    match case {
        Case::Trip(input) => 100 * input.trip.states.len() + 1,
        Case::Write(input) => input.trip.states.len(),
        Case::D { trip, .. } => trip.states.len(),
        Case::Sweep(input) => input.co2.len(),
        Case::Percentile { products, .. } => products.len(),
        Case::Read { bytes, .. } | Case::Blocks { bytes, .. } => bytes.len(),
        Case::Printed(bytes) => bytes.len(),
        _ => 1,
    }
}

/// The call without what the program prints of the same trip.
fn unprinted(mut case: Case) -> Case {
    if let Case::Trip(input) = &mut case {
        input.printed = false;
    }
    case
}

/// The calls that the build is held to, cheap ones first.
fn held_calls(rules: &Rules) -> Vec<Tried> {
    let mut calls: Vec<Tried> = frozen::calls(library::meaning())
        .into_iter()
        .map(|named| {
            let case = unprinted(named.case);
            Tried {
                name: named.name,
                right: case.by_paper(rules),
                cost: cost(&case),
                case,
            }
        })
        .collect();
    calls.sort_by_key(|tried| tried.cost);
    calls
}

/// A call dearer than this is not tried on a wrong reading that is listed as not to be told.
const DEAR: usize = 100_000;

/// The name of the first call that tells a wrong reading, those of its own part tried first.
fn told_by<'a>(wrong: &Wrong, calls: &'a [Tried]) -> Option<&'a str> {
    let of_part = |tried: &&Tried| tried.name.starts_with(wrong.part);
    let others = |tried: &&Tried| !tried.name.starts_with(wrong.part);
    let listed = ground(wrong).is_some();
    let mut order = calls
        .iter()
        .filter(of_part)
        .chain(calls.iter().filter(others))
        .filter(|tried| tried.cost < DEAR || !listed);
    let found = order.find(|tried| tried.case.by_paper(&wrong.rules) != tried.right);
    found.map(|tried| &tried.name[..])
}

/// The ground on which a wrong reading is listed as one that no input can tell.
fn ground(wrong: &Wrong) -> Option<&'static str> {
    let mut listed = NOT_TO_BE_TOLD.iter();
    let row = listed.find(|row| row.0 == wrong.sentence && row.1 == wrong.instead);
    row.map(|row| row.2)
}

pub fn compare(account: &mut Account) {
    account.compare(
        "wrong readings, each told by an input that the build is held to",
        tell,
    );
}

fn tell(comparison: &mut Comparison) {
    let calls = held_calls(&comparison.rules);
    let table = readings(&comparison.rules);
    let told = each_told(&table, &calls);
    let in_words = |told: bool| if told { "told" } else { "not to be told" };
    for (wrong, told) in table.iter().zip(&told) {
        let wanted = in_words(ground(wrong).is_none());
        comparison.same(in_words(told.is_some()), wanted, || {
            format!("\"{}\" read as: {}", wrong.sentence, wrong.instead)
        });
    }
    let count = told.iter().flatten().count();
    let listed = table.iter().filter_map(ground).count();
    let releases = (1..=NEWEST).filter_map(oracle::release);
    let of_all: Vec<Wrong> = releases.flat_map(|rules| readings(&rules)).collect();
    for (sentence, instead, _) in NOT_TO_BE_TOLD {
        let is_row = |wrong: &Wrong| wrong.sentence == sentence && wrong.instead == instead;
        comparison.same(of_all.iter().any(is_row), true, || {
            format!("\"{sentence}\" read as: {instead}: listed, and in no release's table")
        });
    }
    println!(
        "wrong readings: {} tried, {count} told, {listed} that no input can tell",
        table.len()
    );
}

/// Prints the table: each wrong reading with its sentence, and the input that tells it.
pub fn print(rules: &Rules) {
    let calls = held_calls(rules);
    let table = readings(rules);
    for (wrong, told) in table.iter().zip(each_told(&table, &calls)) {
        let told = match (told, ground(wrong)) {
            (Some(name), _) => format!("told by: {name}"),
            (None, Some(ground)) => format!("not to be told: {ground}"),
            (None, None) => "told by no input".to_string(),
        };
        println!("\"{}\" read as: {}; {told}", wrong.sentence, wrong.instead);
    }
}

/// What tells each wrong reading, found side by side.
fn each_told<'a>(table: &[Wrong], calls: &'a [Tried]) -> Vec<Option<&'a str>> {
    let next = AtomicUsize::new(0);
    let work = || {
        let mut found = Vec::new();
        loop {
            let place = next.fetch_add(1, Ordering::Relaxed);
            let Some(wrong) = table.get(place) else {
                return found;
            };
            found.push((place, told_by(wrong, calls)));
        }
    };
    let mut told = vec![None; table.len()];
    thread::scope(|scope| {
        let workers: Vec<_> = (0..THREADS).map(|_| scope.spawn(work)).collect();
        for worker in workers {
            for (place, name) in worker.join().expect("no reading stops the program") {
                told[place] = name;
            }
        }
    });
    told
}

/// How many calls of a set tell each wrong reading, where there are so many.
const TOLD_BY: usize = 3;

/// Of these calls those that tell a wrong reading which not enough before them tell.
pub fn that_tell(rules: &Rules, calls: Vec<Named>) -> Vec<Named> {
    let table = readings(rules);
    let mut told = vec![0; table.len()];
    let mut kept = Vec::new();
    for named in calls {
        let right = named.case.by_paper(rules);
        let mut tells = false;
        for (wrong, told) in table.iter().zip(&mut told) {
            if *told < TOLD_BY && named.case.by_paper(&wrong.rules) != right {
                *told += 1;
                tells = true;
            }
        }
        if tells {
            kept.push(named);
        }
    }
    kept
}
