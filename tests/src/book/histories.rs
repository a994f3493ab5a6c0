//! Long random histories of hosts of several kinds, with damage between the calls.

use crate::damage::damage;
use crate::history::History;
use crate::host::{Host, Plan};
use crate::random::Random;
use crate::report::{Difference, Group, Report};
use crate::tally::Tally;
use std::time::{Duration, Instant};

/// A kind of host: how many histories of it, and how many calls in each.
struct Sort {
    name: &'static str,
    histories: usize,
    calls: usize,
    plan: fn(&mut Random) -> Plan,
}

const SORTS: [Sort; 5] = [
    Sort { name: "1 to 8 open and 1 to 12 finished places", histories: 2_700, calls: 250, plan: small },
    Sort { name: "a finished book too small for the open one", histories: 300, calls: 250, plan: narrow },
    Sort { name: "32 accounts", histories: 200, calls: 300, plan: crowded },
    Sort { name: "64 open and 100 finished places", histories: 60, calls: 600, plan: middle },
    Sort { name: "1,024 open and 10,000 finished places", histories: 1, calls: 1_500, plan: large },
];

fn small(random: &mut Random) -> Plan {
    let (open, finished) = (1 + random.below(8), 1 + random.below(12));
    Plan { open, finished, names: 2 + random.below(5), ids: 3 + random.below(10), careless: true }
}

fn narrow(random: &mut Random) -> Plan {
    let (open, finished) = (2 + random.below(7), 1 + random.below(4));
    Plan { open, finished, names: 2 + random.below(3), ids: 12, careless: true }
}

fn crowded(random: &mut Random) -> Plan {
    Plan { open: 4, finished: 1 + random.below(20), names: 34, ids: 10, careless: true }
}

fn middle(_: &mut Random) -> Plan {
    Plan { open: 64, finished: 100, names: 5, ids: 150, careless: true }
}

fn large(_: &mut Random) -> Plan {
    Plan { open: 1_024, finished: 10_000, names: 8, ids: 900, careless: false }
}

/// The histories of the gate: every run has the same. Of `share` of them only the first is taken.
pub fn run(report: &mut Report, tally: &mut Tally, share: usize) {
    for sort in &SORTS {
        report.group(&format!("histories: {}", sort.name), |group| {
            let mut taken = (0..sort.histories).step_by(share);
            taken.try_for_each(|number| history(group, tally, sort, &format!("{} {number}", sort.name)))
        });
    }
}

/// Other histories for so many seconds. A difference is told with its seed, which repeats it.
pub fn run_on(report: &mut Report, tally: &mut Tally, seconds: u64, seed: &str) {
    let until = Instant::now() + Duration::from_secs(seconds);
    report.group(&format!("histories: {seconds} seconds more, seed {seed}"), |group| {
        for number in 0.. {
            // The large books are slow: one of their histories among many others.
            let sort = &SORTS[if number % 1_000 == 999 { 4 } else { number % 4 }];
            history(group, tally, sort, &format!("{seed} {number}"))?;
            if Instant::now() >= until {
                break;
            }
        }
        Ok(())
    });
}

fn history(group: &mut Group, tally: &mut Tally, sort: &Sort, seed: &str) -> Result<(), Difference> {
    let mut random = Random::named(seed);
    let plan = (sort.plan)(&mut random);
    let mut host = Host::new(random, plan);
    let mut history = History::new(host.room());
    let (lengths, first) = (host.lengths, host.first());
    // Before an open there is no book: any bytes, mostly not even a head.
    one_call(group, tally, &mut history, &mut host)?;
    let outcome = history.call(group, tally, lengths, first.clone())?;
    host.learn(&lengths, &first, &outcome);
    for _ in 0..sort.calls {
        if host.random.one_in(16) {
            damaged_calls(group, tally, &mut history, &mut host)?;
        }
        one_call(group, tally, &mut history, &mut host)?;
    }
    Ok(())
}

pub fn one_call(group: &mut Group, tally: &mut Tally, history: &mut History, host: &mut Host) -> Result<(), Difference> {
    let (lengths, call) = host.next(history.world());
    let outcome = history.call(group, tally, lengths, call.clone())?;
    host.learn(&lengths, &call, &outcome);
    Ok(())
}

/// Damage and some calls on it. Mostly the sound book comes back; else the history goes on with the damaged one.
fn damaged_calls(group: &mut Group, tally: &mut Tally, history: &mut History, host: &mut Host) -> Result<(), Difference> {
    let lengths = host.lengths;
    let comes_back = !host.random.one_in(6);
    if comes_back {
        history.keep();
    }
    for _ in 0..1 + host.random.below(2) {
        for (buffer, at, bytes) in damage(&mut host.random, history.world(), &lengths) {
            history.put(buffer, at, &bytes);
        }
    }
    for _ in 0..1 + host.random.below(5) {
        one_call(group, tally, history, host)?;
    }
    if comes_back {
        history.restore();
        host.restored(lengths);
    }
    Ok(())
}
