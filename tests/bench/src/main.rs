//! The library beside plain safe Rust that does the same: one run, ratios printed.

mod mass;
mod percentile;
mod plain_trip;
mod program;
#[path = "../../progress.rs"]
mod progress;
mod stream;
mod sweep;
mod timing;
mod trip;
mod writer;

fn main() {
    println!(
        "{:<48} {:>10} {:>10} {:>7}",
        "work", "ours", "Rust", "ratio"
    );
    mass::bench();
    let growths = [
        stream::bench(),
        writer::bench(),
        sweep::bench(),
        percentile::bench(),
        trip::bench(),
    ];
    program::bench();
    println!();
    println!(
        "{:<48} {:>10} {:>10}",
        "growth from 1,024 to 8,192 (8.0 is linear)", "ours", "Rust"
    );
    growths.iter().for_each(timing::print_growth);
    assert_eq!(
        timing::begun(),
        timing::WORKS,
        "WORKS is not how many works are timed"
    );
}
