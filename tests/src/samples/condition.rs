//! Texts of conditions and fulfilments.

use super::{texts, Samples};
use crate::random::Random;
use crate::second::condition;

pub struct Condition;

/// 001, 4.2.17.2.1 without its padding (4.2.18.2.1): "Bill & Melinda Gates Foundation!".
pub const EXAMPLE: &str = "QmlsbCAmIE1lbGluZGEgR2F0ZXMgRm91bmRhdGlvbiE";

impl Samples for Condition {
    const NAME: &'static str = "condition";

    fn valid(random: &mut Random) -> Vec<u8> {
        random.text(condition::ALPHABET, 43)
    }

    fn models() -> Vec<Vec<u8>> {
        let mixed = [&condition::ALPHABET[21..], &condition::ALPHABET[..43]].map(<[u8]>::to_vec);
        texts(&[EXAMPLE, &"A".repeat(43), &"_".repeat(43)]).into_iter().chain(mixed).collect()
    }

    fn limits() -> Vec<Vec<u8>> {
        let lengths = (0..=90).flat_map(|length| ["A", "_", "=", "+"].map(|letter| letter.repeat(length)));
        let ends = (38..=46).flat_map(|length| ["=", "==", "+", "/", " ", "\n"].map(|end| "a".repeat(length) + end));
        lengths.chain(ends).map(String::into_bytes).collect()
    }
}
