//! Writes the stage counts of the Rust's test build to standard output, which is crates/counts/data/counts; how many radii
//! there are, and how many were left out, is told on standard error.
use oracle::stored_counts::bytes;
use oracle::thresholds::thresholds;
use std::io::Write;

fn main() {
    eprintln!("{}", oracle::build());
    let (bytes, [written, left_out]) = bytes(&thresholds());
    std::io::stdout().write_all(&bytes).unwrap();
    eprintln!("{written} radii, {left_out} left out");
}
