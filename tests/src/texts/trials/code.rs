//! Abort code: the library beside the second implementation.

use super::{readers, verdict, Field};
use crate::face::{self, Seen};
use crate::random::Random;
use crate::report::{shown, Difference, Group, Report};
use crate::samples::{texts, Samples};
use crate::second::code;

struct Code;

impl Samples for Code {
    const NAME: &'static str = "code";

    fn valid(random: &mut Random) -> Vec<u8> {
        random.within(1000, 9999).to_string().into_bytes()
    }

    fn models() -> Vec<Vec<u8>> {
        texts(&["1000", "3303", "5100", "9999"])
    }

    fn limits() -> Vec<Vec<u8>> {
        let lengths = (0..=8).flat_map(|length| ["0", "1", "9", "/", ":"].map(|digit| digit.repeat(length).into_bytes()));
        lengths
            .chain(texts(&["0999", "1000", "9999", "10000", "-100", "+100", "1e10", " 100", "100 ", "5100\n", "51.0"]))
            .collect()
    }
}

impl Field for Code {
    fn compare(group: &mut Group, text: &[u8]) -> Result<(), Difference> {
        let before = 0xabcd;
        let second = code::read(text);
        let expected = Seen { verdict: verdict(&second), value: second.unwrap_or(before) };
        group.same(face::read_code(text, before), expected, || shown(text))
    }
}

pub fn run(report: &mut Report) {
    readers::<Code>(report);
    report.group("code: read, every number of one to five digits", |group| {
        for width in 1..=5 {
            let below = 10_u32.pow(width as u32);
            (0..below).try_for_each(|number| Code::compare(group, format!("{number:0width$}").as_bytes()))?;
        }
        Ok(())
    });
}
