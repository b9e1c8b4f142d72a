//! The program on a full trip, beside `cat` of the same file: what starting, reading and judging
//! take together, beside starting and reading alone.

use std::fs::File;
use std::path::{Path, PathBuf};
use std::process::{Command, Stdio};

use crate::timing::against;

/// Runs in one timing: a process is short.
const RUNS: u64 = 20;

pub fn bench() {
    let root = Path::new(env!("CARGO_MANIFEST_DIR")).join("../..");
    let judge = root.join("target/bin/judge");
    let trip = root.join("examples/valid.trip");
    against(
        &format!("{RUNS} runs of the program, beside `cat`"),
        || runs(&judge, &trip),
        || runs(&PathBuf::from("cat"), &trip),
    );
}

/// How many runs ended well.
fn runs(program: &Path, trip: &Path) -> u64 {
    (0..RUNS)
        .map(|_| {
            let status = Command::new(program)
                .stdin(File::open(trip).expect("the example is there"))
                .stdout(Stdio::null())
                .status()
                .expect("the program is there: `make judge` builds it");
            u64::from(status.success())
        })
        .sum()
}
