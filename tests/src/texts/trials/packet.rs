//! Packet: the library beside the second implementation.

use super::{readers, verdict, Field};
use crate::face;
use crate::random::Random;
use crate::report::{shown, Difference, Group, Report};
use crate::samples::{texts, Samples};
use crate::second::condition::ALPHABET;
use crate::second::packet::{self, MOST};

struct Packet;

impl Samples for Packet {
    const NAME: &'static str = "packet";

    fn valid(random: &mut Random) -> Vec<u8> {
        let length = if random.one_in(100) { random.below(2000) } else { random.below(60) };
        let mut text = random.text(ALPHABET, 1 + length);
        let equals = random.below(3);
        text.extend(random.text(b"=", equals));
        text
    }

    fn models() -> Vec<Vec<u8>> {
        texts(&["A", "AQ", "AQ=", "AQ==", "_-9z", "QmlsbCAmIE1lbGluZGEgR2F0ZXMgRm91bmRhdGlvbiE="])
    }

    fn limits() -> Vec<Vec<u8>> {
        let lengths = [0, 1, 2, 3, 4, 100, 32_764, 32_765, 32_766, 32_767, 32_768, 32_769, 32_770, 40_000, 65_536];
        let padded = lengths.iter().flat_map(|length| (0..=4).map(|equals| with_equals(*length, equals)));
        padded.chain(long_damaged()).chain(texts(ODD)).collect()
    }
}

impl Field for Packet {
    fn compare(group: &mut Group, text: &[u8]) -> Result<(), Difference> {
        group.same(face::read_packet(text), verdict(&packet::read(text)), || shown(text))
    }
}

const ODD: &[&str] = &["=", "==", "===", "=A", "A=A", "A==A", "AQ=Q", "A A", "A\n", "A+", "A/", "A=\n", "A== ", "AQ==="];

fn with_equals(letters: usize, equals: usize) -> Vec<u8> {
    let mut text: Vec<u8> = ALPHABET.iter().cycle().take(letters).copied().collect();
    text.resize(letters + equals, b'=');
    text
}

/// A foreign byte or an `=` at places around the limit, in texts that end at, before and after it.
fn long_damaged() -> Vec<Vec<u8>> {
    let places = [0, 1, 16_384, MOST - 4, MOST - 3, MOST - 2, MOST - 1];
    let lengths = [MOST - 1, MOST, MOST + 1];
    let pairs = lengths.iter().flat_map(|length| places.map(|place| (*length, place)));
    pairs.flat_map(|(length, place)| [b'=', b'+', 0, 0xff].map(|byte| with_byte(length, place, byte))).collect()
}

fn with_byte(length: usize, place: usize, byte: u8) -> Vec<u8> {
    let mut text = with_equals(length, 0);
    text[place.min(length - 1)] = byte;
    text
}

pub fn run(report: &mut Report) {
    readers::<Packet>(report);
    report.group("packet: read, every byte around the limit of length", |group| {
        for (length, place) in [(MOST, MOST - 1), (MOST + 1, MOST - 1), (MOST + 1, MOST)] {
            (0..=255).try_for_each(|byte| Packet::compare(group, &with_byte(length, place, byte)))?;
        }
        Ok(())
    });
}
