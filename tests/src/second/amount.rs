//! Amount. 01: "`0` or a digit 1 to 9 followed by digits, at most 18 in all; then perhaps a point and one
//! to four digits, the last not 0."

use super::expression::Form;
use super::{decimal, with_room, Reading, Writing, NOT_IN_FORM};
use std::sync::LazyLock;

/// 000, listing 23: 001's listing 11 with the limit of 18 digits that 01 asks for.
const LISTING: &str = "^([0]|([1-9][0-9]{0,17}))([.][0-9]{0,3}[1-9])?$";

static FORM: LazyLock<Form> = LazyLock::new(|| Form::published(LISTING));

/// Whole units and a remainder 0 to 9,999. 01: "The value is counted in ten-thousandths".
pub fn read(text: &[u8]) -> Reading<(u64, u16)> {
    FORM.judge(text)?;
    let value = ten_thousandths(text);
    Ok(((value / 10_000) as u64, (value % 10_000) as u16))
}

fn ten_thousandths(text: &[u8]) -> i128 {
    let mut halves = text.split(|byte| *byte == b'.');
    let whole = halves.next().unwrap_or_default();
    let mut part = halves.next().unwrap_or_default().to_vec();
    part.resize(4, b'0');
    decimal(whole) * 10_000 + decimal(&part)
}

/// 01: "1 for an amount .. that no text reads to"; these are units above 10^18 - 1 or a remainder above 9,999.
pub fn write(units: u64, remainder: u16, room: usize) -> Writing {
    if u128::from(units) >= 10_u128.pow(18) || remainder > 9_999 {
        return Err(NOT_IN_FORM);
    }
    let all = format!("{units}.{remainder:04}");
    let text = all.trim_end_matches('0').trim_end_matches('.');
    // A whole number that ends in zeros lost none: the point stood between.
    with_room(text.as_bytes().to_vec(), room)
}
