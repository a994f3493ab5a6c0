//! Texts and values of ids.

use super::{texts, Samples};
use crate::random::Random;

pub struct Id;

/// The example of 001, 4.2.16.2.
const EXAMPLE: &str = "a8323bc6-c228-4df2-ae82-e5a997baf898";

impl Samples for Id {
    const NAME: &'static str = "id";

    fn valid(random: &mut Random) -> Vec<u8> {
        let mut text = random.text(b"0123456789abcdef", 36);
        for dash in [8, 13, 18, 23] {
            text[dash] = b'-';
        }
        text[14] = *random.of(b"12345");
        text[19] = *random.of(b"89ab");
        text
    }

    fn models() -> Vec<Vec<u8>> {
        texts(&[EXAMPLE, "00000000-0000-1000-8000-000000000000", "ffffffff-ffff-5fff-bfff-ffffffffffff"])
    }

    fn limits() -> Vec<Vec<u8>> {
        let longer = (0..40).map(|length| EXAMPLE.repeat(2).as_bytes()[..length].to_vec());
        longer.chain(two_digits()).chain(texts(ODD)).collect()
    }
}

pub const ODD: &[&str] = &[
    "",
    "a8323bc6c2284df2ae82e5a997baf898",
    "A8323BC6-C228-4DF2-AE82-E5A997BAF898",
    "{a8323bc6-c228-4df2-ae82-e5a997baf898}",
    "00000000-0000-0000-0000-000000000000",
    "a8323bc6-c228-4df2-ae82-e5a997baf898\n",
    "a8323bc-6c228-4df2-ae82-e5a997baf898",
    "a8323bc6-c228-4df2-ae82e5a997baf8985",
];

/// Every pair of version and variant digit.
fn two_digits() -> impl Iterator<Item = Vec<u8>> {
    const DIGITS: &[u8] = b"0123456789abcdefAB-";
    DIGITS.iter().flat_map(|version| DIGITS.iter().map(|variant| with_digits(*version, *variant)))
}

fn with_digits(version: u8, variant: u8) -> Vec<u8> {
    let mut text = EXAMPLE.as_bytes().to_vec();
    text[14] = version;
    text[19] = variant;
    text
}

/// An id whose version and variant bytes are as given.
pub fn with_bytes(version: u8, variant: u8) -> Vec<u8> {
    let mut bytes: Vec<u8> = (0..16).map(|place| place * 17).collect();
    bytes[6] = version;
    bytes[8] = variant;
    bytes
}
