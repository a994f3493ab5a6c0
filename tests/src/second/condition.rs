//! Condition and fulfilment (BinaryString32). 01: "43 characters A-Z a-z 0-9 - _, base64url without padding,
//! 32 bytes. The last character's two low bits are dropped. The writer sets them to zero."

use super::expression::Form;
use super::{with_room, Reading, Writing, NOT_IN_FORM};
use std::sync::LazyLock;

/// 000, listing 28 (001's listing 16 is empty in the copy).
const LISTING: &str = "^[A-Za-z0-9-_]{43}$";

/// RFC 4648, table 2, in its order.
pub const ALPHABET: &[u8; 64] = b"ABCDEFGHIJKLMNOPQRSTUVWXYZabcdefghijklmnopqrstuvwxyz0123456789-_";

static FORM: LazyLock<Form> = LazyLock::new(|| Form::published(LISTING));

pub fn read(text: &[u8]) -> Reading<Vec<u8>> {
    FORM.judge(text)?;
    let sixes = text.iter().map(|byte| ALPHABET.iter().position(|letter| letter == byte).expect("in the alphabet"));
    let mut bits: Vec<bool> = sixes.flat_map(|six| bits_of(six, 6)).collect();
    bits.truncate(256);
    Ok(bits.chunks(8).map(|eight| number_of(eight) as u8).collect())
}

/// 01: "1 for .. a condition not of 32 bytes".
pub fn write(bytes: &[u8], room: usize) -> Writing {
    if bytes.len() != 32 {
        return Err(NOT_IN_FORM);
    }
    let mut bits: Vec<bool> = bytes.iter().flat_map(|byte| bits_of(usize::from(*byte), 8)).collect();
    bits.resize(43 * 6, false);
    let text = bits.chunks(6).map(|six| ALPHABET[number_of(six)]).collect();
    with_room(text, room)
}

fn bits_of(number: usize, count: u32) -> impl Iterator<Item = bool> {
    (0..count).rev().map(move |place| number >> place & 1 == 1)
}

fn number_of(bits: &[bool]) -> usize {
    bits.iter().fold(0, |number, bit| number * 2 + usize::from(*bit))
}
