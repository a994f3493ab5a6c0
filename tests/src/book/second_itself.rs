//! Checks of the second implementation alone, without the library.

use crate::host::{Host, Plan};
use crate::random::Random;
use crate::report::{Difference, Group, Report};
use crate::scripts::{all, Script};
use crate::second::book::{Head, Transfer, RECORD};
use crate::world::{second, Buffer, Call, Kind, Lengths, World};

pub fn run(report: &mut Report) {
    for (name, lines, lengths) in all() {
        report.group(&format!("second itself: {name}"), |group| scripted(group, &lengths, &lines));
    }
    report.group("second itself: from an accepted open never 21, positions sum, none above its cap", histories);
}

/// What 01's program prints: number, code, mark, and for time as many of the list's numbers as the mark says.
pub fn printed(call: &Call, world: &World, answer: crate::second::book::Answer) -> String {
    let mut all = vec![answer.number, answer.code, answer.mark];
    if call.kind == Kind::Time {
        all.extend(world.listed(answer.mark as usize));
    }
    all.iter().map(u32::to_string).collect::<Vec<_>>().join(" ")
}

fn scripted(group: &mut Group, lengths: &Lengths, lines: &Script) -> Result<(), Difference> {
    let mut world = World::new(lengths);
    lines.iter().try_for_each(|(line, expected)| {
        let call = Call::line(line);
        let outcome = second(world.lend(lengths), &call);
        group.same(&printed(&call, &world, outcome.answer), expected, || line.clone())
    })
}

/// Hosts that always lend what was noted at opening.
fn histories(group: &mut Group) -> Result<(), Difference> {
    for number in 0..400 {
        let mut random = Random::named(&format!("second itself {number}"));
        let (open, finished) = (1 + random.below(8), 1 + random.below(14));
        let plan = Plan { open, finished, names: 2 + random.below(4), ids: 4 + random.below(9), careless: false };
        let mut host = Host::new(random, plan);
        let mut world = World::new(&host.room());
        let (mut lengths, mut call) = (host.lengths, host.first());
        for _ in 0..200 {
            let outcome = second(world.lend(&lengths), &call);
            let about = || format!("history {number}, {call}");
            group.same(outcome.answer.number == 21, false, about)?;
            host.learn(&lengths, &call, &outcome);
            sound(group, &world, &host.lengths, about)?;
            (lengths, call) = host.next(&world);
        }
    }
    Ok(())
}

/// 01, "What a reader can rely on": the sums over the bytes as they are after a call.
fn sound(group: &mut Group, world: &World, lengths: &Lengths, about: impl Fn() -> String) -> Result<(), Difference> {
    let head = Head::read(world.bytes(Buffer::Head)).ok_or_else(|| format!("{}: no head", about()))?;
    let slots = world.bytes(Buffer::Open)[..lengths.open].chunks(RECORD).filter(|slot| slot[16] != 0);
    let amounts: i128 = slots.filter_map(Transfer::read).map(|transfer| transfer.amount).sum();
    let positions: i128 = head.accounts.iter().map(|account| account.position).sum();
    group.same(positions, amounts, || format!("{}: the positions' sum", about()))?;
    let above = head.accounts.iter().find(|account| account.position > account.cap);
    group.same(above, None, || format!("{}: an account above its cap", about()))
}
