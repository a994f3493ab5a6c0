//! The comparison of the proved book, through its exported calls, with the second implementation and its recount. Prints a
//! line for each group of checks and, last, how many passed and failed. SECONDS=n in the environment makes it
//! go on for n seconds with other histories; SEED=text gives them a seed, so that they are the same again. SHARE=n
//! takes one of n histories, for a run that is slowed down. An argument asks for the groups alone whose names start
//! with it; `speed` asks for times instead; `overrun` does what a sanitizer must see.

mod damage;
mod each;
mod face;
mod fields;
mod histories;
mod history;
mod host;
mod large;
mod limits;
mod recount;
mod recounted;
mod scripts;
mod second_itself;
mod speed;
mod tally;
mod texts;
mod world;

use common::{mutate, random, report, samples, second};
use std::env;
use std::process::ExitCode;
use std::time::{SystemTime, UNIX_EPOCH};

/// How often each answer of each call must have been given.
const ENOUGH: u64 = 500;

fn main() -> ExitCode {
    let wanted = env::args().nth(1).unwrap_or_default();
    if wanted == "speed" {
        speed::run();
        return ExitCode::SUCCESS;
    }
    if wanted == "overrun" {
        face::overrun();
        println!("nobody saw it");
        return ExitCode::SUCCESS;
    }
    let mut report = report::Report::of(wanted);
    let mut tally = tally::Tally::default();
    second_itself::run(&mut report);
    fields::run(&mut report);
    scripted(&mut report, &mut tally);
    each::run(&mut report, &mut tally);
    limits::run(&mut report, &mut tally);
    large::run(&mut report, &mut tally);
    let share = number("SHARE").map_or(1, |share| share.max(1) as usize);
    recount::run(&mut report, share);
    histories::run(&mut report, &mut tally, share);
    if share == 1 {
        report.group("every answer of every call was given often enough", |group| tally.judge(group, ENOUGH));
    }
    if let Some(seconds) = number("SECONDS") {
        let now = SystemTime::now().duration_since(UNIX_EPOCH).map_or(0, |since| since.as_nanos());
        let seed = env::var("SEED").unwrap_or_else(|_| now.to_string());
        histories::run_on(&mut report, &mut tally, seconds, &seed);
    }
    tally.print();
    if report.finish() {
        ExitCode::SUCCESS
    } else {
        ExitCode::FAILURE
    }
}

/// A number from the environment.
fn number(variable: &str) -> Option<u64> {
    env::var(variable).ok().and_then(|text| text.parse().ok())
}

/// The histories with written answers, with both implementations.
fn scripted(report: &mut report::Report, tally: &mut tally::Tally) {
    for (name, lines, lengths) in scripts::all() {
        report.group(&format!("script: {name}"), |group| history::History::new(lengths).script(group, tally, &lines));
    }
}
