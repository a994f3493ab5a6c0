//! Values as texts, each in one of the ways in which a sender may write it.

use crate::random::Random;
use crate::second::book::{MOST_AMOUNT, UNIT};
use crate::second::{amount, condition, datetime};

/// The text of ten-thousandths, at the nearest value that has one.
pub fn amount_text(value: i128) -> Vec<u8> {
    let value = value.clamp(0, MOST_AMOUNT);
    amount::write((value / UNIT) as u64, (value % UNIT) as u16, 23).expect("the value has a text")
}

/// One of the four texts of 32 bytes: "The last character's two low bits are dropped."
pub fn condition_text(random: &mut Random, bytes: &[u8; 32]) -> Vec<u8> {
    let mut text = condition::write(bytes, 43).expect("32 bytes have a text");
    let last = condition::ALPHABET.iter().position(|letter| *letter == text[42]).expect("a letter of the alphabet");
    text[42] = condition::ALPHABET[last + random.below(4)];
    text
}

/// One of the texts of an instant: `Z`, `+00:00`, `-00:00` or any other offset. Where the instant has no text
/// under the offset, one near the ends of the form.
pub fn instant_text(random: &mut Random, instant: i64) -> Vec<u8> {
    let any = format!("{}{:02}:{:02}", random.of(&["+", "-"]), random.below(20), random.below(60));
    let first = *random.of(&["Z", "Z", "Z", "+00:00", "-00:00", &any, &any]);
    let with_offset = |zone: &&str| {
        let local = instant.checked_add(offset(zone))?;
        let text = datetime::write(local, 24).ok()?;
        Some([&text[..23], zone.as_bytes()].concat())
    };
    let found = [first, "Z", "-19:59", "+19:59"].iter().find_map(with_offset);
    found.unwrap_or_else(|| b"9999-12-31T23:59:59.999-19:59".to_vec())
}

/// Milliseconds that are added to an instant to have its text: "a `+` offset is subtracted".
fn offset(zone: &str) -> i64 {
    if zone == "Z" {
        return 0;
    }
    let number = |from: usize| zone[from..from + 2].parse::<i64>().expect("two digits");
    let size = (number(1) * 60 + number(4)) * 60_000;
    if zone.starts_with('-') {
        -size
    } else {
        size
    }
}
