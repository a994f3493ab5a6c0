//! DateTime: the library beside the second implementation.

use super::lent::written;
use super::{readers, verdict, Field, EACH, ROOMS};
use crate::face::{self, Seen};
use crate::random::Random;
use crate::report::{shown, Difference, Group, Report};
use crate::samples::datetime::{edge_instants, DateTime};
use crate::second::datetime;

impl Field for DateTime {
    fn compare(group: &mut Group, text: &[u8]) -> Result<(), Difference> {
        let before = -0x0123_4567_89ab_cdef;
        let second = datetime::read(text);
        let expected = Seen { verdict: verdict(&second), value: second.unwrap_or(before) };
        group.same(face::read_datetime(text, before), expected, || shown(text))
    }
}

fn write(group: &mut Group, instant: i64, room: usize, seed: u8) -> Result<(), Difference> {
    let call = |out: &mut [u8]| face::write_datetime(instant, out);
    written(group, (room, seed), datetime::write(instant, room), call, || format!("instant {instant}"))
}

pub fn run(report: &mut Report) {
    readers::<DateTime>(report);
    report.group("datetime: read, the days around the end of every month of every year", |group| {
        for (year, month) in (1000..=9999).flat_map(|year| (1..=12).map(move |month| (year, month))) {
            let last = datetime::days_in(year, month);
            [1, last, last + 1].into_iter().try_for_each(|day| {
                let text = format!("{year}-{month:02}-{day:02}T00:00:00.000Z");
                DateTime::compare(group, text.as_bytes())
            })?;
        }
        Ok(())
    });
    report.group("datetime: write, both sides of the limits", |group| {
        for instant in edge_instants() {
            ROOMS.into_iter().try_for_each(|room| write(group, instant, room, 1))?;
        }
        Ok(())
    });
    report.group("datetime: write, random", |group| {
        let mut random = Random::named("datetime: write, random");
        for _ in 0..EACH {
            let instant = match random.below(8) {
                0 => random.number() as i64,
                1 => random.number() as i64 >> random.below(64),
                _ => random.within(-30_620_000_000_000, 253_412_000_000_000),
            };
            write(group, instant, 20 + random.below(10), random.byte())?;
        }
        Ok(())
    });
    report.group("datetime: write, both ends of every day of the form", |group| {
        let mut days = -30_610_224_000_000_i64 / 86_400_000..=253_402_300_799_999 / 86_400_000;
        days.try_for_each(|day| {
            let start = day * 86_400_000;
            write(group, start, 24, 2)?;
            write(group, start - 1, 24, 2)
        })
    });
}
