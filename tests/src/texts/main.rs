//! The comparison of the proved readers, writers and hash with the second implementation. Prints a line for
//! each group of checks and, last, how many passed and failed.

mod face;
mod trials;

use common::{mutate, random, report, samples, second};
use std::process::ExitCode;

fn main() -> ExitCode {
    let mut report = report::Report::default();
    trials::run(&mut report);
    if report.finish() {
        ExitCode::SUCCESS
    } else {
        ExitCode::FAILURE
    }
}
