//! The proved line program, run as a user runs it: bytes in, bytes out.

use std::env;
use std::fs;
use std::io::{Read, Write};
use std::path::PathBuf;
use std::process::{Child, Command, Stdio};
use std::thread;
use std::time::Duration;

/// crates/switch/out/switch, or the program that SWITCH names.
fn program() -> PathBuf {
    let beside = PathBuf::from(env!("CARGO_MANIFEST_DIR")).join("../crates/switch/out/switch");
    env::var("SWITCH").map_or(beside, PathBuf::from)
}

fn started() -> Child {
    let program = program();
    let child = Command::new(&program).stdin(Stdio::piped()).stdout(Stdio::piped()).spawn();
    child.unwrap_or_else(|error| panic!("{}: {error}; `make switch` builds it", program.display()))
}

/// What it prints when the input comes in parts of these lengths, the last of them again and again.
pub fn printed_in_parts(input: &[u8], lengths: &[usize]) -> Vec<u8> {
    let mut child = started();
    let mut stdin = child.stdin.take().expect("piped");
    let mut stdout = child.stdout.take().expect("piped");
    let reader = thread::spawn(move || {
        let mut all = Vec::new();
        stdout.read_to_end(&mut all).expect("the output can be read");
        all
    });
    let (mut rest, mut lengths) = (input, lengths.iter().copied().peekable());
    let mut length = input.len();
    while !rest.is_empty() {
        length = lengths.next().unwrap_or(length).clamp(1, rest.len().max(1));
        let (part, after) = rest.split_at(length.min(rest.len()));
        stdin.write_all(part).expect("the program reads to the end");
        rest = after;
    }
    drop(stdin);
    child.wait().expect("the program ends");
    reader.join().expect("the output was read")
}

pub fn printed(input: &[u8]) -> Vec<u8> {
    printed_in_parts(input, &[input.len()])
}

extern "C" {
    /// Of the C library that the standard library links: who is -1 for the children that have ended.
    fn getrusage(who: i32, usage: *mut [i64; 18]) -> i32;
}

/// What the programs that have ended took of the processor, theirs and the system's for them.
fn taken() -> Duration {
    let mut usage = [0; 18];
    // SAFETY: Linux's struct rusage has 18 numbers of eight bytes, the first four of them the two times.
    unsafe { getrusage(-1, &mut usage) };
    let [seconds, micros, system_seconds, system_micros] = [usage[0], usage[1], usage[2], usage[3]].map(|number| number as u64);
    Duration::from_secs(seconds + system_seconds) + Duration::from_micros(micros + system_micros)
}

/// How much of the processor an input takes, whatever else the machine does, and what it prints.
pub fn timed(input: &[u8]) -> (Duration, Vec<u8>) {
    let before = taken();
    let output = printed(input);
    (taken() - before, output)
}

/// The most memory, in kilobytes, that it has held after so many bytes without a newline.
pub fn peak_after(bytes: usize) -> u64 {
    let mut child = started();
    let mut stdin = child.stdin.take().expect("piped");
    let part = vec![b'A'; 1 << 20];
    (0..bytes >> 20).for_each(|_| stdin.write_all(&part).expect("the program reads to the end"));
    let status = fs::read_to_string(format!("/proc/{}/status", child.id())).expect("Linux tells of a process");
    drop(stdin);
    child.wait().expect("the program ends");
    let line = status.lines().find(|line| line.starts_with("VmHWM")).expect("its peak");
    line.split_whitespace().nth(1).and_then(|number| number.parse().ok()).expect("a number of kilobytes")
}
