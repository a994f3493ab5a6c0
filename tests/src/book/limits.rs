//! Both sides of each limit that the shape sets to an amount, a cap and a position.

use crate::each::{built, lengths, probes};
use crate::report::Report;
use crate::second::book::RECORD;
use crate::tally::Tally;
use crate::world::Buffer;

const MOST: u64 = 100_000_000_000_000_000;

/// Bytes that are put into the book of every kind, and whether it is of the shape then.
struct Case {
    puts: Vec<(Buffer, usize, Vec<u8>)>,
    is_sound: bool,
}

pub fn run(report: &mut Report, tally: &mut Tally) {
    report.group("each limit of an amount, a cap and a position", |group| {
        let mut history = built(group, tally)?;
        for (number, case) in amounts().into_iter().chain(caps()).chain(positions()).enumerate() {
            for probe in probes() {
                case.puts.iter().for_each(|(buffer, at, bytes)| history.put(*buffer, *at, bytes));
                let outcome = history.call(group, tally, lengths(), probe.clone())?;
                let about = || format!("case {number}, {probe}: of the shape");
                group.same(outcome.answer.number != 21, case.is_sound, about)?;
                history.restore();
            }
        }
        Ok(())
    });
}

/// Remainder and units, bytes 22-31 of a record.
fn amount(buffer: Buffer, place: usize, units: u64, remainder: u16) -> (Buffer, usize, Vec<u8>) {
    let bytes = [&remainder.to_be_bytes()[..], &units.to_be_bytes()].concat();
    (buffer, place * RECORD + 22, bytes)
}

/// Cap and position of an account, bytes 32-51 of its place.
fn account(number: usize, cap: (u64, u16), position: (i64, u16)) -> (Buffer, usize, Vec<u8>) {
    let units = [cap.0.to_be_bytes(), position.0.to_be_bytes()].concat();
    let remainders = [cap.1.to_be_bytes(), position.1.to_be_bytes()].concat();
    (Buffer::Head, 32 + 64 * number + 32, [units, remainders].concat())
}

/// In the finished book alone, and in slot 3, where the amount was 0, with the payee's position raised by as much.
/// A remainder of 10,000 that counted as a unit would sum as well.
fn amounts() -> Vec<Case> {
    let values = [
        (0, 9_999, true),
        (0, 10_000, false),
        (0, 10_001, false),
        (0, 65_535, false),
        (999_999_999_999_999_999, 9_999, true),
        (999_999_999_999_999_999, 10_000, false),
        (1_000_000_000_000_000_000, 0, false),
        (1 << 63, 0, false),
        (u64::MAX, 9_999, false),
    ];
    let finished =
        values.map(|(units, remainder, is_sound)| Case { puts: vec![amount(Buffer::Finished, 1, units, remainder)], is_sound });
    let open = [(0, 9_999, (0, 9_999), true), (0, 10_000, (1, 0), false), (7, 0, (7, 0), true), (7, 1, (7, 0), false)];
    let open = open.map(|(units, remainder, position, is_sound)| Case {
        puts: vec![amount(Buffer::Open, 3, units, remainder), account(1, (0, 0), position)],
        is_sound,
    });
    finished.into_iter().chain(open).collect()
}

/// Of account 1, whose position is 0.
fn caps() -> Vec<Case> {
    let values = [
        (0, 0, true),
        (0, 9_999, true),
        (0, 10_000, false),
        (0, 65_535, false),
        (MOST - 1, 9_999, true),
        (MOST - 1, 10_000, false),
        (MOST, 0, true),
        (MOST, 1, false),
        (MOST + 1, 0, false),
        (1 << 63, 0, false),
        (u64::MAX, 0, false),
    ];
    let case = |(units, remainder, is_sound)| Case { puts: vec![account(1, (units, remainder), (0, 0))], is_sound };
    values.map(case).into_iter().collect()
}

/// Of accounts 1 and 3, so that they sum to 0 as before: "positions at most 10^17 units" is a limit from above.
fn positions() -> Vec<Case> {
    let most = MOST as i64;
    let values = [
        ((-1, 9_999), (0, 1), true),
        ((-1, 10_000), (0, 0), false),
        ((-2, 10_000), (1, 0), false),
        ((-most, 0), (most, 0), true),
        ((-most - 1, 9_999), (most, 1), false),
        ((-most - 1, 0), (most + 1, 0), false),
        ((-most, 1), (most - 1, 9_999), true),
        ((-most, 1), (most - 1, 9_998), false),
        ((i64::MIN, 0), (i64::MIN, 0), false),
        ((i64::MIN, 0), (0, 0), false),
    ];
    let case = |(one, other, is_sound)| Case { puts: vec![account(1, (0, 0), one), account(3, (7, 0), other)], is_sound };
    values.map(case).into_iter().collect()
}
