//! The comparison of the proved line program with a line program over the second implementation. Prints a line for
//! each group of checks and, last, how many passed and failed. The argument `program` makes it the second line
//! program itself: calls from standard input, answers to standard output. Another argument asks for the groups
//! alone whose names start with it.

mod histories;
mod program;
mod proved;
mod shapes;
mod written;

#[allow(dead_code)]
#[path = "../book/host.rs"]
mod host;
#[path = "../book/texts.rs"]
mod texts;
#[allow(dead_code)]
#[path = "../book/world.rs"]
mod world;

use common::{mutate, random, report, samples, second};
use report::{shown, Difference, Group};
use std::env;
use std::io::{self, Read, Write};
use std::process::ExitCode;

fn main() -> ExitCode {
    let wanted = env::args().nth(1).unwrap_or_default();
    if wanted == "program" {
        let mut input = Vec::new();
        io::stdin().read_to_end(&mut input).expect("the input can be read");
        io::stdout().write_all(&program::printed(&input)).expect("the output can be written");
        return ExitCode::SUCCESS;
    }
    let mut report = report::Report::of(wanted);
    written::run(&mut report);
    shapes::run(&mut report);
    histories::run(&mut report);
    if report.finish() {
        ExitCode::SUCCESS
    } else {
        ExitCode::FAILURE
    }
}

/// Both programs on one input, answer by answer.
fn compare(group: &mut Group, input: &[u8], ours: &[u8]) -> Result<(), Difference> {
    let expected = program::printed(input);
    let mut answers = ours.split_inclusive(|byte| *byte == b'\n');
    let lines = input.split_inclusive(|byte| *byte == b'\n');
    for ((at, line), answer) in lines.enumerate().zip(expected.split_inclusive(|byte| *byte == b'\n')) {
        let ours = answers.next().unwrap_or_default();
        group.same(shown(ours), shown(answer), || format!("line {}, {}", at + 1, shown(line)))?;
    }
    group.same(answers.count(), 0, || "answers after the last line".to_string())
}
