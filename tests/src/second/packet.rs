//! Packet. 01: "1 to 32,768 characters, of which at least one from that alphabet and at the end at most two
//! `=`. Only this form is judged."

use super::expression::Form;
use super::Reading;
use std::sync::LazyLock;

/// 000, listing 27 (001's listing 15 is empty in the copy). The limit of length stands beside it.
const LISTING: &str = "^[A-Za-z0-9-_]+[=]{0,2}$";

/// The `=` count among the 32,768.
pub const MOST: usize = 32_768;

static FORM: LazyLock<Form> = LazyLock::new(|| Form::published(LISTING));

/// A text that is too long goes on up to the limit, unless the listing stops it before. Every start of such
/// a text that the listing lets through is either in form or, if empty, a letter short of it, so that within
/// the limit the listing alone decides.
pub fn read(text: &[u8]) -> Reading<()> {
    if text.len() <= MOST {
        return FORM.judge(text);
    }
    FORM.judge(&text[..MOST])?;
    Err(MOST)
}
