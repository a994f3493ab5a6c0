//! Amount: the library beside the second implementation.

use super::lent::written;
use super::{readers, verdict, Field, EACH, ROOMS};
use crate::face::{self, Seen};
use crate::random::Random;
use crate::report::{shown, Difference, Group, Report};
use crate::samples::amount::{edge_units, Amount, EDGE_REMAINDERS};
use crate::second::amount;

impl Field for Amount {
    fn compare(group: &mut Group, text: &[u8]) -> Result<(), Difference> {
        let before = (0x1234_5678_9abc_def0, 0xfedc);
        let second = amount::read(text);
        let expected = Seen { verdict: verdict(&second), value: second.unwrap_or(before) };
        group.same(face::read_amount(text, before), expected, || shown(text))
    }
}

fn write(group: &mut Group, (units, remainder): (u64, u16), room: usize, seed: u8) -> Result<(), Difference> {
    let expected = amount::write(units, remainder, room);
    let call = |out: &mut [u8]| face::write_amount(units, remainder, out);
    written(group, (room, seed), expected, call, || format!("units {units}, remainder {remainder}"))
}

pub fn run(report: &mut Report) {
    readers::<Amount>(report);
    report.group("amount: write, both sides of the limits", |group| {
        for units in edge_units() {
            for remainder in EDGE_REMAINDERS {
                ROOMS.into_iter().try_for_each(|room| write(group, (units, remainder), room, 3))?;
            }
        }
        Ok(())
    });
    report.group("amount: write, every remainder", |group| {
        (0..=u16::MAX).try_for_each(|remainder| write(group, (7, remainder), 6, remainder as u8))
    });
    report.group("amount: write, random", |group| {
        let mut random = Random::named("amount: write, random");
        for _ in 0..EACH {
            let units = random.number() >> random.below(64);
            let remainder = random.below(10_100) as u16;
            write(group, (units, remainder), random.below(30), random.byte())?;
        }
        Ok(())
    });
}
