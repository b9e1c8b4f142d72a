//! judge_by_oracle [RELEASE]: reads a stream from standard input and prints its answer by a release
//! of the meaning, the newest where none is named. A read that fails is not the end of a stream:
//! nothing is judged, `unreadable` goes to standard error.

use std::io::{self, Read, Write};
use std::process::ExitCode;

use oracle::rules::{release, NEWEST};

fn main() -> ExitCode {
    let asked = std::env::args().nth(1).unwrap_or(NEWEST.to_string());
    let Some(rules) = asked.parse().ok().and_then(release) else {
        eprintln!("there is no release `{asked}`: they run from 1 to {NEWEST}");
        return ExitCode::FAILURE;
    };
    let mut bytes = Vec::new();
    if io::stdin().read_to_end(&mut bytes).is_err() {
        eprintln!("unreadable");
        return ExitCode::FAILURE;
    }
    let text = oracle::report::judge(&rules, &bytes);
    match io::stdout().write_all(text.as_bytes()) {
        Ok(()) => ExitCode::SUCCESS,
        Err(_) => ExitCode::FAILURE,
    }
}
