//! Long random histories of calls, as lines.

use crate::host::{Host, Plan};
use crate::program::printed;
use crate::random::Random;
use crate::report::{Difference, Group, Report};
use crate::world::{second, Call, Lengths, World};
use crate::{compare, proved};
use std::collections::BTreeMap;

/// The lines of a history of so many calls: those of a host that sees the book after each.
pub fn lines(name: &str, calls: usize) -> Vec<u8> {
    let mut random = Random::named(name);
    let names = if random.one_in(4) { 34 } else { 2 + random.below(5) };
    let plan = Plan { open: 64, finished: 100, names, ids: 4 + random.below(140), careless: false };
    let mut host = Host::new(random, plan);
    let mut world = World::new(&host.room());
    let (mut lengths, mut call) = (Lengths::places(64, 100), host.first());
    let mut input = Vec::new();
    for _ in 0..calls {
        let outcome = second(world.lend(&lengths), &call);
        host.learn(&lengths, &call, &outcome);
        input.extend(line(&call));
        (_, call) = host.next(&world);
        lengths = Lengths::places(64, 100);
    }
    input
}

fn line(call: &Call) -> Vec<u8> {
    let word = format!("{:?}", call.kind).to_uppercase().into_bytes();
    let mut line = [vec![word], call.fields.clone()].concat().join(&b' ');
    line.push(b'\n');
    line
}

/// Both books filled to the last place and once more, and so the accounts: 8, 9 and 18.
fn full() -> Vec<u8> {
    let id = |number: usize| format!("00000000-0000-4000-8000-{number:012}");
    let prepare = |number: usize| format!("PREPARE {} a0 a1 XTS 1 {} 2024-01-01T00:01:00.000Z AQ\n", id(number), "A".repeat(43));
    let joins = (0..33).map(|number| format!("JOIN a{number} 1000\n"));
    let aborts = (0..64).map(|number| format!("ABORT a1 {} 5100\n", id(number)));
    let open = ["OPEN XTS 2024-01-01T00:00:00.000Z\n".to_string()];
    let lines = open.into_iter().chain(joins).chain((0..65).map(prepare)).chain(aborts).chain((100..137).map(prepare));
    lines.collect::<String>().into_bytes()
}

pub fn run(report: &mut Report) {
    report.group("histories: both books and the accounts full", |group| compare(group, &full(), &proved::printed(&full())));
    report.group("histories: 200 of 600 lines", |group| {
        (0..200).try_for_each(|number| {
            let input = lines(&format!("history {number}"), 600);
            compare(group, &input, &proved::printed(&input))
        })
    });
    report.group("histories: every answer that the program can give was given", every_answer);
}

/// 16, 20, 22 and 23 are out of the program's reach: its lengths are fixed and good, and no line writes a text.
fn every_answer(group: &mut Group) -> Result<(), Difference> {
    let mut given: BTreeMap<Vec<u8>, usize> = BTreeMap::new();
    let inputs = (0..200).map(|number| lines(&format!("history {number}"), 600)).chain([full(), b"TIME now\n".to_vec()]);
    for input in inputs {
        let answers = printed(&input);
        for answer in answers.split(|byte| *byte == b'\n') {
            *given.entry(answer.split(|byte| *byte == b' ').next().unwrap_or_default().to_vec()).or_default() += 1;
        }
    }
    let possible = (0..=15).chain([17, 18, 19, 21, 24]);
    possible.into_iter().try_for_each(|number: u32| {
        let times = given.get(number.to_string().as_bytes()).copied().unwrap_or_default();
        group.same(times > 0, true, || format!("answer {number} given {times} times"))
    })
}
