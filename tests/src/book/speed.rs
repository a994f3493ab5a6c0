//! How long one prepare and one fulfil take on the largest books, shape included: the library beside the second
//! implementation, in turns. The shortest time counts: the others had to share the machine.

use crate::face;
use crate::large::{fulfil, prepare, reserved};
use crate::second::book::{MOST_FINISHED, MOST_OPEN, RECORD};
use crate::world::{second, Buffer, Call, Lengths, Lent, Outcome, World};
use std::time::{Duration, Instant};

const ROUNDS: usize = 101;

/// Records in use: none, some, and nearly as many as there are places.
const IN_USE: [(usize, usize); 3] = [(0, 0), (500, 30_000), (1_000, 64_000)];

pub fn run() {
    for (open, finished) in IN_USE {
        let mut library = prepared(open, finished);
        let mut other = library.clone();
        let mut times = [const { Vec::new() }; 4];
        for round in 0..ROUNDS {
            // Ids that no record has.
            let number = 500_000 + round;
            for (at, call) in [prepare(number, "0.5"), fulfil(number)].iter().enumerate() {
                times[at].push(timed(&mut library, call, face::call));
                times[at + 2].push(timed(&mut other, call, second));
            }
        }
        let [prepare, fulfil, second_prepare, second_fulfil] = times.map(|times| times.into_iter().min().unwrap_or_default());
        println!("{open} open and {finished} finished records of {MOST_OPEN} and {MOST_FINISHED} places");
        for (name, ours, second) in [("prepare", prepare, second_prepare), ("fulfil", fulfil, second_fulfil)] {
            let ratio = ours.as_secs_f64() / second.as_secs_f64();
            println!("  {name}: {ours:.1?}, second implementation {second:.1?}, ratio {ratio:.2}");
        }
    }
}

/// Two accounts and as many records as are to be in use.
fn prepared(open: usize, finished: usize) -> World {
    let lengths = Lengths::places(MOST_OPEN, MOST_FINISHED);
    let mut world = World::new(&lengths);
    for line in ["OPEN XTS 2024-01-01T00:00:00.000Z", "JOIN a 1000", "JOIN b 1000"] {
        timed(&mut world, &Call::line(line), second);
    }
    let mut record = [0; RECORD];
    for place in 0..finished {
        let mut transfer = reserved(place + 1, 1);
        (transfer.state, transfer.ended_by) = (3, 1);
        transfer.write(&mut record);
        world.put(Buffer::Finished, place * RECORD, &record);
    }
    for slot in 0..open {
        reserved(finished + slot + 1, 0).write(&mut record);
        world.put(Buffer::Open, slot * RECORD, &record);
    }
    world.put(Buffer::Head, 16, &(finished as u16).to_be_bytes());
    world
}

fn timed(world: &mut World, call: &Call, side: fn(Lent, &Call) -> Outcome) -> Duration {
    let lengths = Lengths::places(MOST_OPEN, MOST_FINISHED);
    let lent = world.lend(&lengths);
    let start = Instant::now();
    let outcome = side(lent, call);
    let time = start.elapsed();
    assert_eq!(outcome.answer.number, 0, "{call} is accepted");
    time
}
