//! Texts to try for each field, for the trials of both libraries: at random, with every byte at every place, at the limits.

pub mod amount;
pub mod condition;
pub mod datetime;
pub mod id;

use crate::random::Random;

/// What the reader trials need to know of a field.
pub trait Samples {
    const NAME: &'static str;

    /// A text in form, at random.
    fn valid(random: &mut Random) -> Vec<u8>;

    /// Texts in form, each to be tried with every byte at every place.
    fn models() -> Vec<Vec<u8>>;

    /// Texts on both sides of each limit.
    fn limits() -> Vec<Vec<u8>>;
}

pub fn text(characters: &str) -> Vec<u8> {
    characters.as_bytes().to_vec()
}

pub fn texts(all: &[&str]) -> Vec<Vec<u8>> {
    all.iter().map(|characters| text(characters)).collect()
}
