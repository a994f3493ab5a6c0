//! The four readers and four writers of the field texts, the codes and the head's length, through the exported calls.

use crate::face;
use crate::mutate::{damaged, each_byte_at_each_place};
use crate::random::Random;
use crate::report::{shown, Difference, Group, Report};
use crate::samples::amount::{edge_units, Amount, EDGE_REMAINDERS};
use crate::samples::condition::Condition;
use crate::samples::datetime::{edge_instants, DateTime};
use crate::samples::id::{with_bytes, Id};
use crate::samples::Samples;
use crate::second::book::{self, Answer, HEAD};
use crate::second::{amount, condition, datetime, id, Reading, Writing};

/// Guard bytes on both sides of a lent buffer.
const GUARD: usize = 16;

/// Random texts of each field, and random values of each writer.
const EACH: usize = 20_000;

/// Room in the buffers that are lent: below, at and above the length of every text.
const ROOMS: std::ops::RangeInclusive<usize> = 0..=50;

pub fn run(report: &mut Report) {
    report.group("codes of the numbers 0 to 100 and the head's length", |group| {
        (0..=100).try_for_each(|number| group.same(face::code(number), book::code(number), || format!("number {number}")))?;
        let far = [u32::MAX, 1 << 16, (1 << 16) + 1, (1 << 31) + 7];
        far.into_iter().try_for_each(|number| group.same(face::code(number), 0, || format!("number {number}")))?;
        group.same(face::head_length(), HEAD as u64, || "the head's length".to_string())
    });
    readers::<Amount>(report, read_amount);
    readers::<Id>(report, |group, text| (14..=18).try_for_each(|room| read_id(group, text, room)));
    readers::<DateTime>(report, read_datetime);
    readers::<Condition>(report, |group, text| (30..=34).try_for_each(|room| read_condition(group, text, room)));
    report.group("read: buffers of every length", |group| {
        let each = |group: &mut Group, room: usize| {
            Id::models().iter().try_for_each(|text| read_id(group, text, room))?;
            Condition::models().iter().try_for_each(|text| read_condition(group, text, room))
        };
        ROOMS.into_iter().try_for_each(|room| each(group, room))
    });
    report.group("write: both sides of the limits", edge_writes);
    report.group("write: random", random_writes);
}

fn readers<F: Samples>(report: &mut Report, compare: impl Fn(&mut Group, &[u8]) -> Result<(), Difference>) {
    report.group(&format!("{}: read", F::NAME), |group| {
        let mut random = Random::named(F::NAME);
        (0..EACH).try_for_each(|_| {
            let valid = F::valid(&mut random);
            compare(group, &damaged(&mut random, valid))
        })?;
        F::limits().iter().try_for_each(|text| compare(group, text))?;
        let models = F::models().into_iter().take(2);
        models.flat_map(|model| each_byte_at_each_place(&model)).try_for_each(|text| compare(group, &text))
    });
}

/// 0, or 1 with nothing written.
fn answer<T>(reading: &Reading<T>) -> Answer {
    Answer::new(u32::from(reading.is_err()), 0)
}

fn read_amount(group: &mut Group, text: &[u8]) -> Result<(), Difference> {
    let before = (0x1234_5678_9abc_def0, 0xfedc);
    let second = amount::read(text);
    group.same(face::read_amount(text, before), (answer(&second), second.unwrap_or(before)), || shown(text))
}

fn read_datetime(group: &mut Group, text: &[u8]) -> Result<(), Difference> {
    let before = -0x0123_4567_89ab_cdef;
    let second = datetime::read(text);
    group.same(face::read_datetime(text, before), (answer(&second), second.unwrap_or(before)), || shown(text))
}

fn read_id(group: &mut Group, text: &[u8], room: usize) -> Result<(), Difference> {
    stored(group, id::read(text), room, |out| face::read_id(text, out), || shown(text))
}

fn read_condition(group: &mut Group, text: &[u8], room: usize) -> Result<(), Difference> {
    stored(group, condition::read(text), room, |out| face::read_condition(text, out), || shown(text))
}

/// A reader of bytes: 1, then 23 if they have no room.
fn stored(
    group: &mut Group,
    reading: Reading<Vec<u8>>,
    room: usize,
    call: impl FnOnce(&mut [u8]) -> Answer,
    about: impl Fn() -> String,
) -> Result<(), Difference> {
    let expected = match reading {
        Err(_) => Err(1),
        Ok(bytes) if bytes.len() > room => Err(23),
        Ok(bytes) => Ok(bytes),
    };
    let answer = Answer::new(expected.as_ref().map_or_else(|number| *number, |_| 0), 0);
    lend(group, (answer, &expected.unwrap_or_default()), room, call, about)
}

/// A writer: its mark is the text's length, 0 when refused.
fn written(
    group: &mut Group,
    expected: Writing,
    room: usize,
    call: impl FnOnce(&mut [u8]) -> Answer,
    about: impl Fn() -> String,
) -> Result<(), Difference> {
    let number = expected.as_ref().map_or_else(|number| *number as u32, |_| 0);
    let text = expected.unwrap_or_default();
    lend(group, (Answer::new(number, text.len() as u32), &text), room, call, about)
}

/// Lends a buffer between guard bytes; its other bytes stay.
fn lend(
    group: &mut Group,
    (answer, bytes): (Answer, &[u8]),
    room: usize,
    call: impl FnOnce(&mut [u8]) -> Answer,
    about: impl Fn() -> String,
) -> Result<(), Difference> {
    let mut buffer: Vec<u8> = (0..room + 2 * GUARD).map(|at| 0x80 | (at as u8).wrapping_mul(37)).collect();
    let mut expected = buffer.clone();
    expected[GUARD..GUARD + bytes.len()].copy_from_slice(bytes);
    let ours = call(&mut buffer[GUARD..GUARD + room]);
    group.same(ours, answer, || format!("{}, room {room}", about()))?;
    group.same_bytes(&buffer, &expected, || format!("{}, room {room} after {GUARD} guard bytes", about()))
}

fn write_amount(group: &mut Group, units: u64, remainder: u16, room: usize) -> Result<(), Difference> {
    let call = |out: &mut [u8]| face::write_amount(units, remainder, out);
    written(group, amount::write(units, remainder, room), room, call, || format!("amount {units}, {remainder}"))
}

fn write_id(group: &mut Group, bytes: &[u8], room: usize) -> Result<(), Difference> {
    written(group, id::write(bytes, room), room, |out| face::write_id(bytes, out), || format!("id {bytes:02x?}"))
}

fn write_datetime(group: &mut Group, instant: i64, room: usize) -> Result<(), Difference> {
    let call = |out: &mut [u8]| face::write_datetime(instant, out);
    written(group, datetime::write(instant, room), room, call, || format!("instant {instant}"))
}

fn write_condition(group: &mut Group, bytes: &[u8], room: usize) -> Result<(), Difference> {
    let call = |out: &mut [u8]| face::write_condition(bytes, out);
    written(group, condition::write(bytes, room), room, call, || format!("condition {bytes:02x?}"))
}

fn edge_writes(group: &mut Group) -> Result<(), Difference> {
    for room in ROOMS {
        for units in edge_units() {
            EDGE_REMAINDERS.into_iter().try_for_each(|remainder| write_amount(group, units, remainder, room))?;
        }
        edge_instants().into_iter().try_for_each(|instant| write_datetime(group, instant, room))?;
        for length in 0..=40 {
            let bytes: Vec<u8> = (0..length).map(|place| if place == 8 { 0x9a } else { 0x4f }).collect();
            write_id(group, &bytes, room)?;
            write_condition(group, &bytes, room)?;
        }
    }
    (0..=255).try_for_each(|version| (0..=255).try_for_each(|variant| write_id(group, &with_bytes(version, variant), 40)))
}

fn random_writes(group: &mut Group) -> Result<(), Difference> {
    let mut random = Random::named("write");
    for _ in 0..EACH {
        let units = random.number() >> random.below(64);
        write_amount(group, units, random.below(10_100) as u16, random.below(30))?;
        let instant = random.within(-30_620_000_000_000, 253_412_000_000_000);
        write_datetime(group, instant, 20 + random.below(10))?;
        let bytes = random.bytes(32);
        write_condition(group, &bytes, 38 + random.below(12))?;
        write_id(group, &bytes[..16], 30 + random.below(12))?;
    }
    Ok(())
}
