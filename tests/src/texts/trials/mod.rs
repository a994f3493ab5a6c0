//! The comparisons: the proved library beside the second implementation, one file for each field.

mod amount;
mod code;
mod condition;
mod currency;
mod datetime;
mod id;
mod lent;
mod name;
mod packet;
mod rows;
mod second_itself;
mod sha256;

use crate::face::{Verdict, ALL};
use crate::mutate::{damaged, each_byte_at_each_place};
use crate::random::Random;
use crate::report::{Difference, Group, Report};
use crate::samples::Samples;
use crate::second::Reading;
use std::ops::RangeInclusive;

pub fn run(report: &mut Report) {
    second_itself::run(report);
    rows::run(report);
    sha256::run(report);
    amount::run(report);
    id::run(report);
    datetime::run(report);
    condition::run(report);
    packet::run(report);
    name::run(report);
    currency::run(report);
    code::run(report);
}

/// Random texts of each field, and random values of each writer.
const EACH: usize = 250_000;

/// Room in the buffers that are lent: below, at and above the length of every text.
const ROOMS: RangeInclusive<usize> = 0..=60;

/// A field whose texts are tried.
trait Field: Samples {
    /// Holds the library's answer to the second implementation's.
    fn compare(group: &mut Group, text: &[u8]) -> Result<(), Difference>;
}

/// The reader's groups of a field.
fn readers<F: Field>(report: &mut Report) {
    let name = format!("{}: read, random and mutated", F::NAME);
    report.group(&name, |group| {
        let mut random = Random::named(&name);
        for _ in 0..EACH {
            let valid = F::valid(&mut random);
            let text = damaged(&mut random, valid);
            compare_within::<F>(group, &mut random, &text)?;
        }
        Ok(())
    });
    report.group(&format!("{}: read, every byte at every place", F::NAME), |group| {
        let texts = F::models().into_iter().flat_map(|model| each_byte_at_each_place(&model));
        texts.into_iter().try_for_each(|text| F::compare(group, &text))
    });
    report.group(&format!("{}: read, both sides of the limits", F::NAME), |group| {
        F::limits().iter().try_for_each(|text| F::compare(group, text))
    });
}

/// The text lent as a part of a longer one, at any alignment, with bytes around it that could belong to it:
/// a reader that looks past either end is misled.
fn compare_within<F: Field>(group: &mut Group, random: &mut Random, text: &[u8]) -> Result<(), Difference> {
    let before = random.below(8);
    let mut all = random.text(b"059aZA-=.", before + text.len() + 8);
    all[before..before + text.len()].copy_from_slice(text);
    F::compare(group, &all[before..before + text.len()])
}

/// The verdict of a reading as the library's readers answer it.
fn verdict<T>(reading: &Reading<T>) -> Verdict {
    match reading {
        Ok(_) => ALL,
        Err(offset) => Verdict(*offset as u64),
    }
}
