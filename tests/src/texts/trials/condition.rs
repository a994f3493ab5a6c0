//! Condition and fulfilment: the library beside the second implementation.

use super::lent::{stored, written};
use super::{readers, Field, EACH, ROOMS};
use crate::face;
use crate::random::Random;
use crate::report::{shown, Difference, Group, Report};
use crate::samples::condition::{Condition, EXAMPLE};
use crate::samples::{text, Samples};
use crate::second::condition;

impl Field for Condition {
    fn compare(group: &mut Group, text: &[u8]) -> Result<(), Difference> {
        compare_with_room(group, text, 32)
    }
}

fn compare_with_room(group: &mut Group, text: &[u8], room: usize) -> Result<(), Difference> {
    let seed = text.first().copied().unwrap_or(5);
    stored(group, (room, seed), condition::read(text), |out| face::read_condition(text, out), || shown(text))
}

fn write(group: &mut Group, bytes: &[u8], room: usize, seed: u8) -> Result<(), Difference> {
    let call = |out: &mut [u8]| face::write_condition(bytes, out);
    written(group, (room, seed), condition::write(bytes, room), call, || format!("bytes {bytes:02x?}"))
}

pub fn run(report: &mut Report) {
    readers::<Condition>(report);
    report.group("condition: read, buffers of every length", |group| {
        for text in Condition::models().iter().chain([&text("AAAA"), &text(EXAMPLE)[1..].to_vec()]) {
            ROOMS.into_iter().try_for_each(|room| compare_with_room(group, text, room))?;
        }
        Ok(())
    });
    report.group("condition: write, lengths and buffers", |group| {
        for length in 0..=70 {
            let bytes: Vec<u8> = (0..length).map(|place| 255 - place * 3).collect();
            ROOMS.into_iter().try_for_each(|room| write(group, &bytes, room, 4))?;
        }
        Ok(())
    });
    report.group("condition: write, every value of every byte", |group| {
        for place in 0..32 {
            (0..=255).try_for_each(|byte| {
                let mut bytes = [0x5a; 32];
                bytes[place] = byte;
                write(group, &bytes, 43, byte)
            })?;
        }
        Ok(())
    });
    report.group("condition: write, random", |group| {
        let mut random = Random::named("condition: write, random");
        for _ in 0..EACH {
            let bytes = random.bytes(32);
            write(group, &bytes, 38 + random.below(12), random.byte())?;
        }
        Ok(())
    });
}
