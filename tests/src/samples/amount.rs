//! Texts and values of amounts.

use super::{texts, Samples};
use crate::random::Random;

pub struct Amount;

impl Samples for Amount {
    const NAME: &'static str = "amount";

    fn valid(random: &mut Random) -> Vec<u8> {
        let mut text = if random.one_in(4) { vec![b'0'] } else { whole(random) };
        let decimals = random.below(5);
        if decimals > 0 {
            text.push(b'.');
            text.extend(random.text(b"0012345678999", decimals - 1));
            text.extend(random.text(b"123456789", 1));
        }
        text
    }

    fn models() -> Vec<Vec<u8>> {
        texts(&["0", "5", "0.5", "5.0001", "120.75", "999999999999999999.9999", "100000000000000000", "1000.1009"])
    }

    fn limits() -> Vec<Vec<u8>> {
        let wholes = (0..=24).flat_map(|count| ["1", "9", "0", "10"].map(|digits| digits.repeat(count)));
        let with_parts = wholes.flat_map(|whole| PARTS.map(|part| format!("{whole}{part}").into_bytes()));
        with_parts.chain(texts(ODD)).collect()
    }
}

/// Ends of an amount on both sides of "one to four digits, the last not 0".
const PARTS: [&str; 18] = [
    "", ".", ".0", ".1", ".00", ".01", ".10", ".001", ".100", ".000", ".0001", ".9999", ".0000", ".1000", ".00001", ".10001",
    ".99999", "..1",
];

const ODD: &[&str] = &["-5.5", "+5", " 5", "5 ", "5,5", "1e5", ".5", "00.5", "5.5.5", "5.5-", "0x5", "\u{665}", "5\n", "5.5\n"];

fn whole(random: &mut Random) -> Vec<u8> {
    let mut text = random.text(b"123456789", 1);
    let more = random.below(18);
    text.extend(random.text(b"0123456789", more));
    text
}

/// Units on both sides of every power of ten and of the limits of the types.
pub fn edge_units() -> Vec<u64> {
    let tens = (0..20).map(|power| 10_u64.pow(power));
    let near = tens.flat_map(|ten| [ten - 1, ten, ten + 1]);
    near.chain([0, 1 << 32, 1 << 63, u64::MAX - 1, u64::MAX]).collect()
}

pub const EDGE_REMAINDERS: [u16; 20] =
    [0, 1, 9, 10, 11, 99, 100, 101, 500, 990, 999, 1000, 1010, 5000, 9990, 9998, 9999, 10_000, 10_001, u16::MAX];
