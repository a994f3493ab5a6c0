//! Id (UUID), 16 bytes. 01: "36 characters, lower-case hex in groups 8-4-4-4-12, third group starting with
//! 1 to 5, fourth with 8, 9, a or b. If listing 14 differs, it decides."

use super::expression::Form;
use super::{with_room, Reading, Writing, NOT_IN_FORM};
use std::sync::LazyLock;

/// 001, listing 14 (000, listing 26 is the same).
const LISTING: &str = "^[0-9a-f]{8}-[0-9a-f]{4}-[1-5][0-9a-f]{3}-[89ab][0-9a-f]{3}-[0-9a-f]{12}$";

static FORM: LazyLock<Form> = LazyLock::new(|| Form::published(LISTING));

pub fn read(text: &[u8]) -> Reading<Vec<u8>> {
    FORM.judge(text)?;
    let digits: String = text.iter().filter(|byte| **byte != b'-').map(|byte| char::from(*byte)).collect();
    let pair = |at: usize| u8::from_str_radix(&digits[at..at + 2], 16).expect("the form has hex digits");
    Ok((0..32).step_by(2).map(pair).collect())
}

/// 01: "1 for an .. id that no text reads to"; also for another length than 16.
pub fn write(id: &[u8], room: usize) -> Writing {
    let digits: String = id.iter().map(|byte| format!("{byte:02x}")).collect();
    if digits.len() != 32 {
        return Err(NOT_IN_FORM);
    }
    let groups = [&digits[..8], &digits[8..12], &digits[12..16], &digits[16..20], &digits[20..]];
    let text = groups.join("-").into_bytes();
    if read(&text).is_err() {
        return Err(NOT_IN_FORM);
    }
    with_room(text, room)
}
