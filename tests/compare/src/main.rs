//! Compares the library and the program with the independent program.
//!
//!     compare [--soak] [SEED]
//!     compare --freeze
//!     compare --readings
//!     compare --moved [SEED]
//!
//! The build is held to the frozen set of the release that it names, and to chosen inputs of the calls
//! that came after it; these are shown to tell every wrong reading, and then both sides are compared
//! on many inputs. `--freeze` makes the set of a new release, `--readings` prints the wrong readings
//! with what tells each, `--moved` what the newest release moved against the one before: windows,
//! verdicts and reasons of realistic trips and of those on the borders, by the independent program
//! alone.
//!
//! Each comparison prints how many inputs it tried and is one test; a difference is printed with
//! its input, and the seed that brings it back. A soak goes on with seeds of its own, and runs the
//! program on every prefix of a full stream. The last line is `N passed, M failed`.

mod account;
mod blocks;
mod borders;
mod bytes;
mod case;
mod chosen;
mod dynamics;
mod ends;
mod frozen;
mod lanes;
mod mass;
mod moved;
mod probe;
mod program;
#[path = "../../progress.rs"]
mod progress;
mod random;
mod reasons;
mod runs;
mod stream;
mod streams;
mod sweep;
mod telling;
mod trip;
mod trips;
mod writer;
mod written;

use account::Account;

const SEED: u64 = 2017_1151;

/// The seeds that a soak goes through, from the first on.
const SOAK_SEEDS: u64 = 8;

fn main() {
    let release = library::meaning();
    let Some(rules) = oracle::release(release) else {
        eprintln!("the build answers by release {release}: the independent program has none such");
        std::process::exit(1);
    };
    let mut seed = SEED;
    let mut soak = false;
    let mut moved = false;
    for word in std::env::args().skip(1) {
        match &word[..] {
            "--freeze" => std::process::exit(frozen::freeze(release, &rules)),
            "--readings" => return telling::print(&rules),
            "--moved" => moved = true,
            "--soak" => soak = true,
            number => seed = number.parse().expect("the seed is a whole number"),
        }
    }
    if moved {
        return moved::print(seed);
    }
    let mut account = Account::new(rules, seed);
    account.run(|account| compare_all(account, soak));
    std::process::exit(account.close());
}

fn compare_all(account: &mut Account, soak: bool) {
    let seed = account.seed;
    frozen::compare(account);
    telling::compare(account);
    compare_library(account);
    if soak {
        for more in 1..SOAK_SEEDS {
            account.seed = seed.wrapping_add(more);
            compare_library(account);
        }
        account.seed = seed;
        program::compare(account, &program::ALL);
    } else {
        program::compare(account, &program::SOME);
    }
}

fn compare_library(account: &mut Account) {
    mass::compare(account);
    stream::compare(account);
    blocks::compare(account);
    writer::compare(account);
    bytes::compare(account);
    sweep::compare(account);
    dynamics::compare(account);
    probe::compare(account);
    trip::compare(account);
    reasons::compare(account);
}
