//! Abort code. 01: "four digits, the first not 0".

use super::expression::Form;
use super::{decimal, Reading};
use std::sync::LazyLock;

/// 001, listing 6 (000, listing 18).
const LISTING: &str = r"^[1-9]\d{3}$";

static FORM: LazyLock<Form> = LazyLock::new(|| Form::published(LISTING));

pub fn read(text: &[u8]) -> Reading<u16> {
    FORM.judge(text)?;
    Ok(decimal(text) as u16)
}
