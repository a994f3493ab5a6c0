//! Histories of which the library, the second book and the recount must say the same: after each call its answer, the expired
//! and every position, and at some points and at the end, by lookups, every transfer's state.

use crate::histories::one_call;
use crate::history::History;
use crate::host::{Host, Plan};
use crate::random::Random;
use crate::report::{Difference, Group, Report};
use crate::scripts::{all, script};
use crate::second::book::{Head, Transfer, RECORD};
use crate::tally::Tally;
use crate::world::{Buffer, Call, Kind, Lengths};

/// A kind of host and how many histories of it.
struct Sort {
    name: &'static str,
    histories: usize,
    plan: fn(&mut Random) -> Plan,
}

const SORTS: [Sort; 4] = [
    Sort { name: "1 to 6 open and 1 to 16 finished places", histories: 700, plan: small },
    Sort { name: "a finished book too small for the open one", histories: 150, plan: narrow },
    Sort { name: "20 open and 60 finished places", histories: 200, plan: middle },
    Sort { name: "32 accounts", histories: 100, plan: crowded },
];

fn small(random: &mut Random) -> Plan {
    let (open, finished) = (1 + random.below(6), 1 + random.below(16));
    Plan { open, finished, names: 2 + random.below(3), ids: 3 + random.below(8), careless: true }
}

fn narrow(random: &mut Random) -> Plan {
    let (open, finished) = (2 + random.below(6), 1 + random.below(4));
    Plan { open, finished, names: 2 + random.below(2), ids: 8, careless: false }
}

fn middle(_: &mut Random) -> Plan {
    Plan { open: 20, finished: 60, names: 4, ids: 40, careless: false }
}

fn crowded(random: &mut Random) -> Plan {
    Plan { open: 3, finished: 1 + random.below(12), names: 34, ids: 6, careless: true }
}

/// How often each answer of each call must have been given in these histories.
const ENOUGH: u64 = 50;

pub fn run(report: &mut Report, share: usize) {
    let mut tally = Tally::default();
    for (name, lines, lengths) in all() {
        report.group(&format!("recount: {name}"), |group| History::recounted(lengths).script(group, &mut tally, &lines));
    }
    for story in &STORIES {
        report.group(&format!("recount: {}", story.name), |group| told(group, &mut tally, story));
    }
    let mut tally = Tally::default();
    for sort in &SORTS {
        report.group(&format!("recount: {}", sort.name), |group| {
            let mut taken = (0..sort.histories).step_by(share);
            taken.try_for_each(|number| history(group, &mut tally, sort, &format!("recount {} {number}", sort.name)))
        });
    }
    if share == 1 {
        report.group("recount: every answer of every call was given often enough", |group| tally.judge(group, ENOUGH));
    }
}

/// A random history of 60 to 200 calls, and the lookups besides.
fn history(group: &mut Group, tally: &mut Tally, sort: &Sort, seed: &str) -> Result<(), Difference> {
    let mut random = Random::named(seed);
    let (plan, calls) = ((sort.plan)(&mut random), 60 + random.below(141));
    let mut host = Host::new(random, plan);
    let mut history = History::recounted(host.room());
    let (lengths, first) = (host.lengths, host.first());
    let outcome = history.call(group, tally, lengths, first.clone())?;
    host.learn(&lengths, &first, &outcome);
    for _ in 1..calls {
        one_call(group, tally, &mut history, &mut host)?;
        if host.random.one_in(40) {
            every_id(group, tally, &mut history, &host)?;
        }
    }
    every_id(group, tally, &mut history, &host)
}

fn every_id(group: &mut Group, tally: &mut Tally, history: &mut History, host: &Host) -> Result<(), Difference> {
    host.ids().iter().try_for_each(|id| {
        let lookup = Call::new(Kind::Lookup, &[id]);
        history.call(group, tally, host.lengths, lookup).map(|_| ())
    })
}

/// A fulfilment and the sweep of the clock meet one transfer: whichever comes first ends it, and nothing after changes that.
struct Story {
    name: &'static str,
    lines: &'static str,
    /// State, ended by and error code of the one record; the positions of payer and payee in ten-thousandths.
    ends: ((u8, u8, u16), [i128; 2]),
}

const STORIES: [Story; 2] = [
    Story {
        name: "the fulfilment, then the sweep",
        lines: "
OPEN XTS 2024-01-01T00:00:00.000Z > 0 0 0
JOIN payer 100 > 0 0 0
JOIN payee 0 > 0 0 0
PREPARE #1 payer payee XTS 60.5 {C} 2024-01-01T00:01:00.000Z AQ > 0 0 1
LOOKUP #1 > 0 0 1
FULFIL payee #1 {S} > 0 0 1
LOOKUP #1 > 0 0 1
TIME 2024-01-01T00:01:00.000Z > 0 0 0
LOOKUP #1 > 0 0 1
FULFIL payee #1 {S} > 24 0 1
ABORT payee #1 5100 > 13 3100 1
TIME 2024-01-01T00:02:00.000Z > 0 0 0
LOOKUP #1 > 0 0 1
",
        ends: ((3, 1, 0), [605_000, -605_000]),
    },
    Story {
        name: "the sweep, then the fulfilment",
        lines: "
OPEN XTS 2024-01-01T00:00:00.000Z > 0 0 0
JOIN payer 100 > 0 0 0
JOIN payee 0 > 0 0 0
PREPARE #1 payer payee XTS 60.5 {C} 2024-01-01T00:01:00.000Z AQ > 0 0 1
LOOKUP #1 > 0 0 1
TIME 2024-01-01T00:01:00.000Z > 0 0 1 1
LOOKUP #1 > 0 0 1
FULFIL payee #1 {S} > 7 3303 1
LOOKUP #1 > 0 0 1
ABORT payee #1 5100 > 7 3303 1
TIME 2024-01-01T00:02:00.000Z > 0 0 0
LOOKUP #1 > 0 0 1
",
        ends: ((4, 3, 3303), [0, 0]),
    },
];

fn told(group: &mut Group, tally: &mut Tally, story: &Story) -> Result<(), Difference> {
    let mut history = History::recounted(Lengths::places(2, 3));
    history.script(group, tally, &script(story.lines))?;
    let world = history.world();
    let head = Head::read(world.bytes(Buffer::Head)).ok_or("no head")?;
    let positions: Vec<i128> = head.accounts.iter().map(|account| account.position).collect();
    let record = Transfer::read(&world.bytes(Buffer::Finished)[..RECORD]).ok_or("no record")?;
    group.same((record.state, record.ended_by, record.error_code), story.ends.0, || "how the transfer ended".to_string())?;
    group.same(&positions[..], &story.ends.1, || "positions of payer and payee".to_string())
}
