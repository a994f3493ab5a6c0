//! FSP name: the library beside the second implementation.

use super::{readers, verdict, Field};
use crate::face;
use crate::random::Random;
use crate::report::{shown, Difference, Group, Report};
use crate::samples::{texts, Samples};
use crate::second::name;

struct Name;

impl Samples for Name {
    const NAME: &'static str = "name";

    fn valid(random: &mut Random) -> Vec<u8> {
        let length = random.within(1, 32);
        (0..length).map(|_| random.within(0x21, 0x7e) as u8).collect()
    }

    fn models() -> Vec<Vec<u8>> {
        texts(&["a", "alpha", "bank.of-the_north/1", &"!".repeat(31), &"~".repeat(32)])
    }

    fn limits() -> Vec<Vec<u8>> {
        let edges = [0x00, 0x1f, 0x20, 0x21, 0x41, 0x7e, 0x7f, 0x80, 0xff];
        let lengths = (0..=70).flat_map(|length| edges.map(|byte| vec![byte; length]));
        let one_last = (0..=40).flat_map(|length| edges.map(|byte| [vec![b'n'; length], vec![byte]].concat()));
        lengths.chain(one_last).collect()
    }
}

impl Field for Name {
    fn compare(group: &mut Group, text: &[u8]) -> Result<(), Difference> {
        group.same(face::read_name(text), verdict(&name::read(text)), || shown(text))
    }
}

pub fn run(report: &mut Report) {
    readers::<Name>(report);
}
