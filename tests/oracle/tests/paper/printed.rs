//! "The printed case", and what the program prints otherwise.

use crate::as_it_stands::judge;
use crate::build::{measured, plan_bytes, second_bytes, stream_bytes, valid_trip, PRINTED_PLAN};
use oracle::second::Second;
use std::fs::File;
use std::io::Write;
use std::process::{Command, Output, Stdio};

const PRINTED: &str = "seconds 5 missing 0 kept 5
windows 4 moves 9
urban 4 0
rural 0 0
motorway 0 0
reasons c86d
";

/// "five measured seconds at speed 3,600, altitude 0, NOx 0, CO2 3, 0, 4, 2, 5"
fn printed_stream() -> Vec<u8> {
    let seconds = [3, 0, 4, 2, 5].map(|co2| measured(3_600, 0, co2, 0));
    stream_bytes(&PRINTED_PLAN, &seconds)
}

fn program() -> Command {
    Command::new(env!("CARGO_BIN_EXE_judge_by_oracle"))
}

/// The program's output for a stream on standard input.
fn run(bytes: &[u8]) -> Output {
    let mut child = program()
        .stdin(Stdio::piped())
        .stdout(Stdio::piped())
        .stderr(Stdio::piped())
        .spawn()
        .unwrap();
    child.stdin.take().unwrap().write_all(bytes).unwrap();
    child.wait_with_output().unwrap()
}

#[test]
fn the_printed_case() {
    assert_eq!(printed_stream().len(), 96);
    assert_eq!(judge(&printed_stream()), PRINTED);
}

#[test]
fn the_program_prints_the_printed_case() {
    let output = run(&printed_stream());
    assert_eq!(output.stdout, PRINTED.as_bytes());
    assert_eq!(output.stderr, b"");
    assert!(output.status.success());
}

#[test]
fn the_program_prints_a_refusal_and_nothing_else() {
    let output = run(&printed_stream()[..95]);
    assert_eq!(output.stdout, b"refused 7 at 81\n");
    assert_eq!(output.stderr, b"");
    assert_eq!(run(b"").stdout, b"refused 11 at 0\n");
}

#[test]
fn a_read_that_fails_is_not_the_end_of_a_stream() {
    let directory = File::open(env!("CARGO_MANIFEST_DIR")).unwrap();
    let output = program().stdin(directory).output().unwrap();
    assert_eq!(output.stdout, b"");
    assert_eq!(output.stderr, b"unreadable\n");
    assert!(!output.status.success());
}

#[test]
fn the_streams_refusal_or_else_the_trips() {
    let plan = plan_bytes(&PRINTED_PLAN);
    assert_eq!(judge(&[]), "refused 11 at 0\n");
    assert_eq!(judge(&[0xff]), "refused 8 at 0\n");
    assert_eq!(judge(&plan), "refused 4 at 0\n");
    assert_eq!(judge(&[&plan[..], &[2, 2]].concat()), "refused 4 at 0\n");
    assert_eq!(judge(&[&plan[..], &[2, 9]].concat()), "refused 8 at 22\n");
    assert_eq!(judge(&[&plan[..], &plan].concat()), "refused 11 at 21\n");
    assert_eq!(
        judge(&[&plan[..], &[2; 8_193]].concat()),
        "refused 2 at 8213\n"
    );
    let bad = second_bytes(&measured(25_001, 0, 0, 0));
    assert_eq!(judge(&[&plan[..], &bad].concat()), "refused 3 at 21\n");
    assert_eq!(judge(&[0x10; 21]), "refused 5 at 0\n");
}

#[test]
fn a_valid_trip_prints_four_zeros() {
    let (plan, mut seconds) = valid_trip();
    seconds[3_000] = Second::missing();
    let expected = "seconds 5510 missing 1 kept 5113
windows 4907 moves 10020
urban 2909 2909
rural 1226 1226
motorway 772 772
reasons 0000
";
    assert_eq!(judge(&stream_bytes(&plan, &seconds)), expected);
}
