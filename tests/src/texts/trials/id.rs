//! Id: the library beside the second implementation.

use super::lent::{stored, written};
use super::{readers, Field, EACH, ROOMS};
use crate::face;
use crate::random::Random;
use crate::report::{shown, Difference, Group, Report};
use crate::samples::id::{with_bytes, Id, ODD};
use crate::samples::{texts, Samples};
use crate::second::id;

impl Field for Id {
    fn compare(group: &mut Group, text: &[u8]) -> Result<(), Difference> {
        compare_with_room(group, text, 16)
    }
}

fn compare_with_room(group: &mut Group, text: &[u8], room: usize) -> Result<(), Difference> {
    let seed = text.first().copied().unwrap_or(5);
    stored(group, (room, seed), id::read(text), |out| face::read_id(text, out), || shown(text))
}

fn write(group: &mut Group, bytes: &[u8], room: usize, seed: u8) -> Result<(), Difference> {
    let call = |out: &mut [u8]| face::write_id(bytes, out);
    written(group, (room, seed), id::write(bytes, room), call, || format!("id {bytes:02x?}"))
}

pub fn run(report: &mut Report) {
    readers::<Id>(report);
    report.group("id: read, buffers of every length", |group| {
        for text in Id::models().iter().chain(&texts(ODD)) {
            ROOMS.into_iter().try_for_each(|room| compare_with_room(group, text, room))?;
        }
        Ok(())
    });
    report.group("id: write, every version and variant byte", |group| {
        for version in 0..=255 {
            (0..=255).try_for_each(|variant| write(group, &with_bytes(version, variant), 40, version))?;
        }
        Ok(())
    });
    report.group("id: write, lengths and buffers", |group| {
        for length in 0..=40 {
            let bytes: Vec<u8> = (0..length).map(|place| if place == 8 { 0x9a } else { 0x4f }).collect();
            ROOMS.into_iter().try_for_each(|room| write(group, &bytes, room, 9))?;
        }
        Ok(())
    });
    report.group("id: write, random", |group| {
        let mut random = Random::named("id: write, random");
        for _ in 0..EACH {
            let mut bytes = random.bytes(16);
            if !random.one_in(4) {
                bytes[6] = bytes[6] % 16 + 16 * (1 + random.below(5) as u8);
                bytes[8] = bytes[8] % 64 + 128;
            }
            write(group, &bytes, 30 + random.below(12), random.byte())?;
        }
        Ok(())
    });
}
