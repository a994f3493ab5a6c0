//! FSP name. 01: "1 to 32 bytes, 0x21 to 0x7E".

use super::expression::Form;
use super::Reading;
use std::sync::LazyLock;

/// 01's words as an expression; 0x21 is `!`, 0x7E is `~`.
const LISTING: &str = "^[!-~]{1,32}$";

static FORM: LazyLock<Form> = LazyLock::new(|| Form::published(LISTING));

pub fn read(text: &[u8]) -> Reading<()> {
    FORM.judge(text)
}
