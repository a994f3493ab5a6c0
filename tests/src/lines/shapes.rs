//! Lines built and damaged in every small way, before and after an OPEN, and inputs that come in small parts.

use crate::mutate::{damaged, each_byte_at_each_place};
use crate::program::MOST;
use crate::proved;
use crate::random::Random;
use crate::report::{Difference, Group, Report};
use crate::{compare, histories};
use std::time::Duration;

const OPEN: &[u8] = b"OPEN XTS 2024-01-01T00:00:00.000Z\n";

const SEEDS: [&[u8]; 7] = [
    b"OPEN XTS 2024-01-01T00:00:00.000Z",
    b"JOIN alpha 100",
    b"PREPARE 1 2 3 4 5 6 7 8",
    b"FULFIL beta 00000000-0000-4000-8000-000000000001 AAAA",
    b"ABORT b c 5100",
    b"TIME 2024-01-01T00:00:00.000Z",
    b"LOOKUP 00000000-0000-4000-8000-000000000001",
];

pub fn run(report: &mut Report) {
    report.group("built: every byte at every place of a line, before an OPEN", |group| each_byte(group, b""));
    report.group("built: every byte at every place of a line, after an OPEN", |group| each_byte(group, OPEN));
    report.group("built: as many pieces as one likes, with and without spaces around", pieces);
    report.group("built: lines of every length near 33,000 bytes", near_the_limit);
    report.group("built: random bytes", random_bytes);
    report.group("built: damaged lines", damaged_lines);
    report.group("parts: one byte at a time", one_at_a_time);
    report.group("parts: of random lengths, with lines near 33,000 bytes", random_parts);
    report.group("cost: 100,000 short lines in well under two seconds", speed);
    report.group("cost: 64 MB without a newline take no more memory than one line", memory);
}

fn each_byte(group: &mut Group, front: &[u8]) -> Result<(), Difference> {
    SEEDS.iter().try_for_each(|seed| {
        let lines = each_byte_at_each_place(seed).into_iter().flat_map(|line| [line, b"\n".to_vec()].concat());
        let input: Vec<u8> = front.iter().copied().chain(lines).collect();
        compare(group, &input, &proved::printed(&input))
    })
}

fn pieces(group: &mut Group) -> Result<(), Difference> {
    let words = ["OPEN", "JOIN", "PREPARE", "FULFIL", "ABORT", "TIME", "LOOKUP", "open", "", "x"];
    let ends = ["", " ", "  ", "\r", "\t"];
    let mut input = Vec::new();
    for (word, count) in words.iter().flat_map(|word| (0..30).map(move |count| (word, count))) {
        for (front, back) in ends.iter().flat_map(|front| ends.iter().map(move |back| (front, back))) {
            input.extend(format!("{front}{word}{}{back}\n", " f".repeat(count)).into_bytes());
        }
    }
    compare(group, &input, &proved::printed(&input))?;
    let input = [OPEN, &input].concat();
    compare(group, &input, &proved::printed(&input))
}

/// A well-built line of so many bytes, newline and all.
fn line_of(bytes: usize) -> Vec<u8> {
    let mut line = b"JOIN alpha ".to_vec();
    line.resize(bytes - 1, b'1');
    line.push(b'\n');
    line
}

fn near_the_limit(group: &mut Group) -> Result<(), Difference> {
    for front in [b"" as &[u8], OPEN] {
        for bytes in (MOST - 20..MOST + 20).chain([2 * MOST - 1, 2 * MOST, 2 * MOST + 1]) {
            let line = line_of(bytes);
            let input = [front, &line, &line[..bytes - 1]].concat();
            compare(group, &input, &proved::printed(&input))?;
        }
    }
    Ok(())
}

fn random_bytes(group: &mut Group) -> Result<(), Difference> {
    let mut random = Random::named("random bytes");
    (0..60).try_for_each(|_| {
        let length = random.below(20_000);
        let mut input = random.bytes(length);
        let few = 2 + random.below(6);
        let some = [b' ', b'\n', b'A', 0, b'\r', b'O', 255, b'1'];
        input.iter_mut().filter(|_| few < 5).for_each(|byte| *byte = some[usize::from(*byte) % few]);
        let input = if random.one_in(2) { [OPEN, &input].concat() } else { input };
        compare(group, &input, &proved::printed(&input))
    })
}

fn damaged_lines(group: &mut Group) -> Result<(), Difference> {
    let mut random = Random::named("damaged lines");
    (0..40).try_for_each(|number| {
        let mut input = histories::lines(&format!("damaged {number}"), 150);
        let at = random.below(3);
        input = input
            .split_inclusive(|byte| *byte == b'\n')
            .flat_map(|line| if random.below(3) < at { damaged(&mut random, line.to_vec()) } else { line.to_vec() })
            .collect();
        compare(group, &input, &proved::printed(&input))
    })
}

fn one_at_a_time(group: &mut Group) -> Result<(), Difference> {
    let input = histories::lines("one at a time", 60);
    compare(group, &input, &proved::printed_in_parts(&input, &[1]))?;
    let unfinished = &input[..input.len() - 1];
    compare(group, unfinished, &proved::printed_in_parts(unfinished, &[1]))
}

fn random_parts(group: &mut Group) -> Result<(), Difference> {
    let mut random = Random::named("random parts");
    (0..60).try_for_each(|number| {
        let mut input = histories::lines(&format!("parts {number}"), 40);
        for _ in 0..random.below(6) {
            let bytes = MOST - 30 + random.below(60);
            input.extend(line_of(bytes));
            input.extend(histories::lines(&format!("parts {number} more"), 5));
        }
        let most = 1 + random.below(40_000);
        let lengths: Vec<usize> = (0..2_000).map(|_| 1 + random.below(most)).collect();
        compare(group, &input, &proved::printed_in_parts(&input, &lengths))
    })
}

fn speed(group: &mut Group) -> Result<(), Difference> {
    let lines = [OPEN, b"JOIN alpha 100\nJOIN beta 0\n"].concat();
    let calls = b"JOIN alpha 1\nTIME 2024-01-01T00:00:00.000Z\nNO CALL\nABORT beta 00000000-0000-4000-8000-000000000001 5100\n";
    let input = [lines, calls.repeat(25_000)].concat();
    let (time, output) = proved::timed(&input);
    compare(group, &input, &output)?;
    println!("  100,003 lines in {} ms of the processor", time.as_millis());
    group.same(time < Duration::from_millis(1_000), true, || format!("took {time:?}"))
}

fn memory(group: &mut Group) -> Result<(), Difference> {
    let (short, endless) = (proved::peak_after(1 << 20), proved::peak_after(64 << 20));
    println!("  {short} kB after 1 MB, {endless} kB after 64 MB");
    group.same(endless <= short + 1_024 && endless < 8_192, true, || format!("{short} kB after 1 MB, {endless} kB after 64 MB"))
}
