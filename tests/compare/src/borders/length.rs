//! Reasons 0 and 1: the seconds of a trip and the missing ones.

use oracle::second::Second;

use super::base::WILD;
use super::drive::Wish;
use super::measure::URBAN;
use super::{Pair, Trip};

pub fn pairs() -> Vec<Pair> {
    vec![
        shortest(),
        longest(),
        one_percent_missing(),
        one_percent_by_length(),
        run_of_missing("at the start", |_| 0),
        run_of_missing("in the middle", |trip| trip.middle(URBAN)),
        run_of_missing("at the end", |trip| trip.seconds.len()),
    ]
}

/// A trip of so many seconds, by standing longer or shorter and by the urban hold.
fn of_length(n: usize) -> Trip {
    let mut wish = Wish::usual();
    let usual = Trip::of(&wish).seconds.len();
    let more = n as i64 - usual as i64;
    wish.seconds[URBAN] += more;
    if more < 0 {
        wish.stops -= 100;
    } else {
        wish.stops += 200;
    }
    Trip::of(&wish)
}

/// The same trip, one of its first, standing seconds left out.
fn without_first(trip: &Trip) -> Trip {
    let mut shorter = trip.clone();
    shorter.seconds.remove(0);
    shorter
}

/// "0: n outside 5,400 to 7,200."
fn shortest() -> Pair {
    let within = of_length(5_400);
    let beyond = without_first(&within);
    Pair::of_reason(0, "5,400 and 5,399 seconds", within, beyond)
}

/// "0: n outside 5,400 to 7,200."
fn longest() -> Pair {
    let beyond = of_length(7_201);
    let within = without_first(&beyond);
    Pair::of_reason(0, "7,200 and 7,201 seconds", within, beyond)
}

/// "1: 100 times missing not below n": of 6,000 seconds 59 and 60.
fn one_percent_missing() -> Pair {
    let trip = of_length(6_000 - 30 - 13);
    let trip = trip.with_more(trip.middle(URBAN), &[WILD; 30]);
    let within = trip.with_more(0, &[Second::missing(); 13]);
    let last_missing = 13;
    let beyond = within.with(last_missing, |second| *second = WILD);
    Pair::of_reason(
        1,
        "one second less than one percent missing, and one percent",
        within,
        beyond,
    )
}

/// "1: 100 times missing not below n": 60 of 6,001 seconds and of 6,000.
fn one_percent_by_length() -> Pair {
    let beyond = one_percent_missing().beyond;
    let last = beyond.seconds.len() - 1;
    let within = beyond.with_more(last, &[beyond.seconds[last]]);
    Pair::of_reason(
        1,
        "60 missing of 6,001 seconds and of 6,000",
        within,
        beyond,
    )
}

/// "1: .. over 30 missing in a row": 30 and 31.
fn run_of_missing(place: &str, at: fn(&Trip) -> usize) -> Pair {
    let trip = Trip::of(&Wish::usual());
    let index = at(&trip);
    let within = trip.with_more(index, &[WILD; 30]);
    let beyond = if index == trip.seconds.len() {
        within.with(index - 1, |second| *second = WILD)
    } else {
        within.with(index + 30, |second| *second = WILD)
    };
    Pair::of_reason(
        1,
        &format!("30 and 31 missing in a row {place}"),
        within,
        beyond,
    )
}
