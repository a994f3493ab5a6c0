//! Which answer each call gave, and how often: a comparison that never meets a refusal says nothing about it.

use crate::report::{Difference, Group};
use crate::world::{Kind, KINDS};

#[derive(Default)]
pub struct Tally {
    counts: [[u64; 25]; KINDS.len()],
}

/// 01, "Rules of each call": every answer that a call can give.
fn answers(kind: Kind) -> &'static [u32] {
    match kind {
        Kind::Open => &[0, 1, 20],
        Kind::Join => &[0, 1, 17, 18, 19, 21],
        Kind::Prepare => &[0, 1, 2, 3, 4, 5, 6, 7, 8, 9, 10, 21, 24],
        Kind::Fulfil => &[0, 1, 6, 7, 11, 12, 13, 14, 21, 24],
        Kind::Abort => &[0, 1, 6, 7, 11, 12, 13, 21, 24],
        Kind::Time => &[0, 1, 15, 16, 21],
        Kind::Lookup => &[0, 1, 11, 21],
    }
}

impl Tally {
    pub fn count(&mut self, kind: Kind, number: u32) {
        self.counts[kind as usize][number as usize] += 1;
    }

    /// Each call gave each of its answers often enough, and none that it hasn't.
    pub fn judge(&self, group: &mut Group, enough: u64) -> Result<(), Difference> {
        for kind in KINDS {
            for number in 0..25 {
                let count = self.counts[kind as usize][number as usize];
                let expected = if answers(kind).contains(&number) { count.max(enough) } else { 0 };
                group.same(count, expected, || format!("{kind:?}, how often answer {number} was given"))?;
            }
        }
        Ok(())
    }

    /// One line for each call: its answers and how often they were given.
    pub fn print(&self) {
        for kind in KINDS {
            let counts = answers(kind).iter().map(|number| format!(" {number}:{}", self.counts[kind as usize][*number as usize]));
            println!("{kind:?}{}", counts.collect::<String>());
        }
    }
}
