//! Currency: the library beside the second implementation.

use super::{readers, verdict, Field};
use crate::face;
use crate::random::Random;
use crate::report::{shown, Difference, Group, Report};
use crate::samples::{texts, Samples};
use crate::second::currency;

struct Currency;

impl Samples for Currency {
    const NAME: &'static str = "currency";

    fn valid(random: &mut Random) -> Vec<u8> {
        random.text(b"ABCDEFGHIJKLMNOPQRSTUVWXYZ", 3)
    }

    fn models() -> Vec<Vec<u8>> {
        texts(&["XTS", "USD", "AAA", "ZZZ"])
    }

    fn limits() -> Vec<Vec<u8>> {
        let lengths = (0..=8).flat_map(|length| ["A", "Z", "@", "[", "a"].map(|letter| letter.repeat(length).into_bytes()));
        lengths.chain(texts(&["xts", "Xts", "XT", "XT ", " XT", "XTS\n", "XT1", "X-S"])).collect()
    }
}

impl Field for Currency {
    fn compare(group: &mut Group, text: &[u8]) -> Result<(), Difference> {
        group.same(face::read_currency(text), verdict(&currency::read(text)), || shown(text))
    }
}

pub fn run(report: &mut Report) {
    readers::<Currency>(report);
    report.group("currency: read, every three of A to Z and the two beside them", |group| {
        for first in b'@'..=b'[' {
            for second in b'@'..=b'[' {
                (b'@'..=b'[').try_for_each(|third| Currency::compare(group, &[first, second, third]))?;
            }
        }
        Ok(())
    });
}
