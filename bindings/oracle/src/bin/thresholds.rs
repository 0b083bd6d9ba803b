//! Compares RKMC2's stage count by thresholds with the Rust's, on every double near a threshold, prints each double at which
//! they differ, and fails where there is one. The Rust's `powf` need not rise from one double to the next, so its count may
//! change more than once.
//!
//! The thresholds are found anew, on the build that the program is run on. Those that the engine has stored are compared by
//! the quick and the long run.
use oracle::thresholds::{UNITS, compared, thresholds};
use std::process::ExitCode;

fn main() -> ExitCode {
    eprintln!("{}", oracle::build());
    let thresholds = thresholds();
    let (count, disagreements) = compared(&thresholds);
    println!(
        "{count} doubles within {UNITS} units in the last place of {} thresholds: {} disagree",
        thresholds.len(),
        disagreements.len()
    );
    for found in &disagreements {
        println!("{found}");
    }
    if disagreements.is_empty() {
        ExitCode::SUCCESS
    } else {
        ExitCode::FAILURE
    }
}
