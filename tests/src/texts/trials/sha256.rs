//! SHA-256: the library beside the second implementation.

use super::{EACH, ROOMS};
use crate::face;
use crate::random::Random;
use crate::report::{Difference, Group, Report};
use crate::second::sha256;

/// Guard bytes on both sides of the 32 that are lent.
fn compare(group: &mut Group, message: &[u8], room: usize) -> Result<(), Difference> {
    let seed = message.first().copied().unwrap_or(7);
    let mut buffer: Vec<u8> = (0..room + 32).map(|place| (place as u8).wrapping_mul(29) ^ seed).collect();
    let mut expected = buffer.clone();
    if room >= 32 {
        expected[16..48].copy_from_slice(&sha256::hash(message));
    }
    face::sha256(message, &mut buffer[16..16 + room]);
    group.same_bytes(&buffer, &expected, || format!("message of {} bytes, room {}", message.len(), room))
}

fn compare_lengths(group: &mut Group, random: &mut Random, lengths: impl Iterator<Item = usize>) -> Result<(), Difference> {
    for length in lengths {
        let message = random.bytes(length);
        compare(group, &message, 32)?;
    }
    Ok(())
}

/// Single bits at both ends and at the borders of blocks: one wrong byte of the message shows.
fn with_bit(length: usize, place: usize, bit: u8) -> Vec<u8> {
    let mut message = vec![0; length];
    message[place] = 1 << bit;
    message
}

pub fn run(report: &mut Report) {
    let mut random = Random::named("sha256");
    report.group("sha256: every length 0 to 1,200", |group| {
        (0..4).try_for_each(|_| compare_lengths(group, &mut random, 0..=1200))?;
        (0..=1200).try_for_each(|length| compare(group, &vec![0; length], 32))?;
        (0..=1200).try_for_each(|length| compare(group, &vec![0xff; length], 32))
    });
    report.group("sha256: lengths around 32,768 and above", |group| {
        compare_lengths(group, &mut random, 32_640..=32_900)?;
        compare_lengths(group, &mut random, [65_535, 65_536, 65_537, 100_000, 1 << 20].into_iter())
    });
    report.group("sha256: every bit of messages of 32, 55, 64 and 119 bytes", |group| {
        for length in [32, 55, 64, 119] {
            for place in 0..length {
                (0..8).try_for_each(|bit| compare(group, &with_bit(length, place, bit), 32))?;
            }
        }
        Ok(())
    });
    report.group("sha256: buffers of every length", |group| {
        for length in [0, 3, 32, 64, 200] {
            let message = random.bytes(length);
            ROOMS.into_iter().try_for_each(|room| compare(group, &message, room))?;
        }
        Ok(())
    });
    report.group("sha256: random short messages", |group| {
        (0..EACH).try_for_each(|_| {
            let length = random.below(180);
            let all = random.bytes(length + 8);
            let start = random.below(8);
            compare(group, &all[start..start + length], 32)
        })
    });
}
