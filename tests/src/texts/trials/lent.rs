//! Lent buffers with guard bytes around them, of which every byte is compared after a call.

use super::verdict;
use crate::face::Verdict;
use crate::report::{Difference, Group};
use crate::second::{Reading, Writing};
use std::fmt::Debug;

const GUARD: usize = 16;

/// Guard, room, guard. The pattern has no ASCII character, so that a text never hides in it.
fn patterned(room: usize, seed: u8) -> Vec<u8> {
    let byte = |place: usize| 0x80 | (place as u8).wrapping_mul(37).wrapping_add(seed);
    (0..GUARD + room + GUARD).map(byte).collect()
}

/// Lends a buffer to the call and compares its answer and the buffer with what they should be.
fn lend<Answer: PartialEq + Debug>(
    group: &mut Group,
    (room, seed): (usize, u8),
    (answer, stored): (Answer, &[u8]),
    call: impl FnOnce(&mut [u8]) -> Answer,
    about: impl Fn() -> String,
) -> Result<(), Difference> {
    let mut buffer = patterned(room, seed);
    let mut expected = buffer.clone();
    expected[GUARD..GUARD + stored.len()].copy_from_slice(stored);
    let ours = call(&mut buffer[GUARD..GUARD + room]);
    group.same(ours, answer, || format!("{}, room {}", about(), room))?;
    group.same_bytes(&buffer, &expected, || format!("{}, room {} after {} guard bytes", about(), room, GUARD))
}

/// A writer's answer: the number in bits 0 to 31, the text's length in bits 32 to 63.
#[derive(Debug, PartialEq)]
struct Answer {
    number: u64,
    length: u64,
}

/// A writer: the text from the first byte on, or nothing.
pub fn written(
    group: &mut Group,
    lent: (usize, u8),
    expected: Writing,
    call: impl FnOnce(&mut [u8]) -> u64,
    about: impl Fn() -> String,
) -> Result<(), Difference> {
    let (number, text) = match expected {
        Ok(text) => (0, text),
        Err(number) => (number, Vec::new()),
    };
    let unpacked = |packed: u64| Answer { number: packed & 0xffff_ffff, length: packed >> 32 };
    let answer = Answer { number, length: text.len() as u64 };
    lend(group, lent, (answer, &text), |out| unpacked(call(out)), about)
}

/// A reader that stores bytes: nothing is stored when it refuses or when they have no room.
pub fn stored(
    group: &mut Group,
    lent: (usize, u8),
    expected: Reading<Vec<u8>>,
    call: impl FnOnce(&mut [u8]) -> Verdict,
    about: impl Fn() -> String,
) -> Result<(), Difference> {
    let answer = verdict(&expected);
    let bytes = expected.unwrap_or_default();
    let kept = if bytes.len() <= lent.0 { &bytes[..] } else { &[] };
    lend(group, lent, (answer, kept), call, about)
}
