//! Currency. 01: "three letters A-Z".

use super::expression::Form;
use super::Reading;
use std::sync::LazyLock;

/// 01's words as an expression.
const LISTING: &str = "^[A-Z]{3}$";

static FORM: LazyLock<Form> = LazyLock::new(|| Form::published(LISTING));

pub fn read(text: &[u8]) -> Reading<()> {
    FORM.judge(text)
}
