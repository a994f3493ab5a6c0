//! The lines that are printed: one for each group of checks, and the sum at the end.

use std::fmt::Debug;

/// The first difference of a group, in words.
pub type Difference = String;

/// One group while it runs: counts what is compared and stops at the first difference.
pub struct Group {
    compared: u64,
}

impl Group {
    /// A comparison that was made elsewhere and found no difference.
    pub fn count(&mut self) {
        self.compared += 1;
    }

    /// `about` is asked only on a difference.
    pub fn same<T: PartialEq + Debug>(&mut self, ours: T, expected: T, about: impl Fn() -> String) -> Result<(), Difference> {
        self.compared += 1;
        if ours == expected {
            return Ok(());
        }
        Err(format!("{}: {:?}, expected {:?}", about(), ours, expected))
    }

    /// The same of every byte of two buffers of one length; a difference is said by its place.
    pub fn same_bytes(&mut self, ours: &[u8], expected: &[u8], about: impl Fn() -> String) -> Result<(), Difference> {
        self.compared += 1;
        match ours.iter().zip(expected).position(|(one, other)| one != other) {
            None => Ok(()),
            Some(at) => Err(format!("{}: byte {} is {:#04x}, expected {:#04x}", about(), at, ours[at], expected[at])),
        }
    }
}

#[derive(Default)]
pub struct Report {
    passed: u64,
    failed: u64,
    /// With which words the names of the groups start that are wanted; empty for all.
    wanted: String,
}

impl Report {
    pub fn of(wanted: String) -> Report {
        Report { wanted, ..Report::default() }
    }

    pub fn group(&mut self, name: &str, checks: impl FnOnce(&mut Group) -> Result<(), Difference>) {
        if !name.starts_with(&self.wanted) {
            return;
        }
        let mut group = Group { compared: 0 };
        match checks(&mut group) {
            Ok(()) => {
                self.passed += 1;
                println!("ok {} ({} compared)", name, group.compared);
            }
            Err(difference) => {
                self.failed += 1;
                println!("FAILED {}: first difference {}", name, difference);
            }
        }
    }

    /// Prints the last line; true if nothing failed.
    pub fn finish(self) -> bool {
        println!("{} passed, {} failed", self.passed, self.failed);
        self.failed == 0
    }
}

/// A text as one can read it in a printed line.
pub fn shown(text: &[u8]) -> String {
    const MOST: usize = 120;
    let start: String = text.iter().take(MOST).map(|byte| byte.escape_ascii().to_string()).collect();
    let more = if text.len() > MOST { ".." } else { "" };
    format!("\"{}{}\" ({} bytes)", start, more, text.len())
}
