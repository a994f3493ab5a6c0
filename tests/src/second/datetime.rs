//! DateTime. 01: "The value is milliseconds from 1970-01-01T00:00:00.000Z, negative before it; a `+` offset
//! is subtracted. The writer always uses `Z`."

use super::expression::Form;
use super::{decimal, with_room, Reading, Writing, INSTANT_OUTSIDE};
use std::sync::LazyLock;

/// 001, listing 12 (the copy in 000, listing 24, is damaged).
const LISTING: &str = concat!(
    r"^(?:[1-9]\d{3}-(?:(?:0[1-9]|1[0-2])-(?:0[1-9]|1\d|2[0-8])|(?:0[13-9]|1[0-2])-",
    r"(?:29|30)|(?:0[13578]|1[02])-31)|(?:[1-",
    r"9]\d(?:0[48]|[2468][048]|[13579][26])|(?:[2468][048]|[13579][26])00)-02-",
    r"29)T(?:[01]\d|2[0-3]):[0-5]\d:[0-5]\d(?:(\.\d{3}))(?:Z|[+-][01]\d:[0-5]\d)$",
);

pub static FORM: LazyLock<Form> = LazyLock::new(|| Form::published(LISTING));

const DAY: i128 = 24 * 60 * 60 * 1000;

pub fn read(text: &[u8]) -> Reading<i64> {
    FORM.judge(text)?;
    let number = |from: usize, to: usize| decimal(&text[from..to]);
    let days = days_before(number(0, 4), number(5, 7)) + number(8, 10) - 1;
    let minutes = number(11, 13) * 60 + number(14, 16);
    let local = days * DAY + minutes * 60_000 + number(17, 19) * 1000 + number(20, 23);
    let offset = match text[23] {
        b'+' => number(24, 26) * 60 + number(27, 29),
        b'-' => -(number(24, 26) * 60 + number(27, 29)),
        _ => 0,
    };
    Ok((local - offset * 60_000 - days_before(1970, 1) * DAY) as i64)
}

/// 22 for an instant outside years 1000-9999 UTC, then 23.
pub fn write(instant: i64, room: usize) -> Writing {
    let since = i128::from(instant) + days_before(1970, 1) * DAY;
    let (days, of_day) = (since.div_euclid(DAY), since.rem_euclid(DAY));
    if days < days_before(1000, 1) || days >= days_before(10_000, 1) {
        return Err(INSTANT_OUTSIDE);
    }
    let (year, month) = month_of(days);
    let day = days - days_before(year, month) + 1;
    let (seconds, thousandths) = (of_day / 1000, of_day % 1000);
    let (hour, minute, second) = (seconds / 3600, seconds / 60 % 60, seconds % 60);
    let text = format!("{year:04}-{month:02}-{day:02}T{hour:02}:{minute:02}:{second:02}.{thousandths:03}Z");
    with_room(text.into_bytes(), room)
}

/// Days from 0001-01-01 to the first of the month, in the Gregorian calendar.
fn days_before(year: i128, month: i128) -> i128 {
    let past = year - 1;
    let years = past * 365 + past / 4 - past / 100 + past / 400;
    years + (1..month).map(|earlier| days_in(year, earlier)).sum::<i128>()
}

pub fn days_in(year: i128, month: i128) -> i128 {
    let leap = year % 4 == 0 && (year % 100 != 0 || year % 400 == 0);
    match month {
        4 | 6 | 9 | 11 => 30,
        2 if leap => 29,
        2 => 28,
        _ => 31,
    }
}

/// The year and month that hold the day. No year has more than 366 days: the search starts low enough.
fn month_of(days: i128) -> (i128, i128) {
    let mut year = days / 366 + 1;
    while days_before(year + 1, 1) <= days {
        year += 1;
    }
    let month = (1..=12).rev().find(|month| days_before(year, *month) <= days);
    (year, month.expect("the year starts no later"))
}
