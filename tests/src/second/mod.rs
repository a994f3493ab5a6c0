//! The second implementation, written from the documents alone. It is meant to be plainly right, not fast:
//! forms are the published regular expressions, arithmetic is on 128 bits.

pub mod amount;
pub mod book;
pub mod code;
pub mod condition;
pub mod currency;
pub mod datetime;
pub mod expression;
pub mod id;
pub mod name;
pub mod packet;
pub mod recount;
pub mod sha256;

/// A value, or the offset of the first byte at which no text of the form can go on; for a text that stops
/// too soon, its length.
pub type Reading<T> = Result<T, usize>;

/// A text, or the number of the refusal.
pub type Writing = Result<Vec<u8>, u64>;

/// 01, the table of numbers: a field not in form; here a value that no text reads to.
pub const NOT_IN_FORM: u64 = 1;
/// 01: instant outside years 1000-9999 UTC.
pub const INSTANT_OUTSIDE: u64 = 22;
/// 01: no room for the text.
pub const NO_ROOM: u64 = 23;

/// The last check of every writer: the buffer holds the text.
fn with_room(text: Vec<u8>, room: usize) -> Writing {
    if text.len() > room {
        return Err(NO_ROOM);
    }
    Ok(text)
}

/// The number that digits say. They are few enough for 128 bits.
fn decimal(digits: &[u8]) -> i128 {
    digits.iter().fold(0, |number, digit| number * 10 + i128::from(digit - b'0'))
}
