//! Books at the limits of their size, and damaged ones whose sums pass 64 bits.

use crate::history::History;
use crate::report::{Difference, Group, Report};
use crate::second::book::{Account, Head, Transfer, HEAD, MOST_AMOUNT, MOST_CAP, MOST_FINISHED, MOST_OPEN, RECORD, UNIT};
use crate::second::{condition, sha256};
use crate::tally::Tally;
use crate::world::{Buffer, Call, Lengths};

const START: &str = "OPEN XTS 2024-01-01T00:00:00.000Z";
const START_TIME: i64 = 1_704_067_200_000;
const SECRET: [u8; 32] = [0; 32];

pub fn run(report: &mut Report, tally: &mut Tally) {
    report.group("large: lengths at open, both sides of the limits", |group| opened(group, tally));
    report.group("large: 1,024 slots taken one by one and expired together", |group| slots(group, tally));
    report.group("large: the last of 65,535 finished places", |group| last_places(group, tally));
    report.group("large: sums that pass 64 bits", |group| sums(group, tally));
}

fn id(number: usize) -> String {
    format!("00000000-0000-4000-8000-{number:012}")
}

/// A transfer of a to b under the hash of the secret, as a prepare of the same fields writes it.
pub fn reserved(number: usize, amount: i128) -> Transfer {
    let mut id = [0; 16];
    (id[6], id[8]) = (0x40, 0x80);
    let digits = format!("{number:012}");
    (0..6).for_each(|at| id[10 + at] = u8::from_str_radix(&digits[2 * at..2 * at + 2], 16).expect("digits"));
    Transfer {
        id,
        state: 2,
        payer: 0,
        payee: 1,
        ended_by: 0,
        error_code: 0,
        amount,
        expiration: START_TIME + 60_000,
        condition: sha256::hash(&SECRET),
        fulfilment: [0; 32],
        packet_hash: sha256::hash(b"AQ"),
        number: number as u32,
        rest: [0; 20],
    }
}

pub fn prepare(number: usize, amount: &str) -> Call {
    let condition = condition::write(&sha256::hash(&SECRET), 43).expect("32 bytes");
    let condition = String::from_utf8(condition).expect("letters");
    Call::line(&format!("PREPARE {} a b XTS {amount} {condition} 2024-01-01T00:01:00.000Z AQ", id(number)))
}

pub fn fulfil(number: usize) -> Call {
    Call::line(&format!("FULFIL b {} {}", id(number), "A".repeat(43)))
}

fn abort(number: usize) -> Call {
    Call::line(&format!("ABORT b {} 5100", id(number)))
}

fn time(seconds: usize) -> Call {
    Call::line(&format!("TIME 2024-01-01T00:{:02}:{:02}.000Z", seconds / 60, seconds % 60))
}

/// 01: "an open book (1 to 1,024 records) and a finished book (1 to 65,535)", at open and in the shape: a head
/// that notes just the lengths that are lent doesn't make them good.
fn opened(group: &mut Group, tally: &mut Tally) -> Result<(), Difference> {
    let room = Lengths::places(MOST_OPEN + 1, MOST_FINISHED + 1);
    let mut history = History::new(room);
    history.put(Buffer::Open, 0, &vec![0; room.open]);
    history.put(Buffer::Finished, 0, &vec![0; room.finished]);
    history.call(group, tally, Lengths::places(1, 1), Call::line(START))?;
    history.keep();
    for open in [0, 1, MOST_OPEN - 1, MOST_OPEN, MOST_OPEN + 1] {
        for finished in [0, 1, MOST_FINISHED - 1, MOST_FINISHED, MOST_FINISHED + 1] {
            let within = (1..=MOST_OPEN).contains(&open) && (1..=MOST_FINISHED).contains(&finished);
            let noted = [(open as u16).to_be_bytes(), (finished as u16).to_be_bytes()].concat();
            history.put(Buffer::Head, 12, &noted);
            for (line, refusal) in [("JOIN a 1", 21), (START, 20)] {
                let outcome = history.call(group, tally, Lengths::places(open, finished), Call::line(line))?;
                let expected = if within { 0 } else { refusal };
                group.same(outcome.answer.number, expected, || format!("{line}, open {open}, finished {finished}"))?;
            }
            history.restore();
        }
    }
    Ok(())
}

/// 8 comes after 1,024; a list of 1,023 places is too short for them. Acceptance numbers with many ties, and
/// not in the order of the slots, decide the order in which they end.
fn slots(group: &mut Group, tally: &mut Tally) -> Result<(), Difference> {
    let lengths = Lengths::places(MOST_OPEN, 1_100);
    let mut history = History::new(lengths);
    for line in [START, "JOIN a 100000", "JOIN b 0"] {
        history.call(group, tally, lengths, Call::line(line))?;
    }
    for number in 1..=MOST_OPEN + 1 {
        let outcome = history.call(group, tally, lengths, prepare(number, "0.0001"))?;
        group.same(outcome.answer.number, if number <= MOST_OPEN { 0 } else { 8 }, || format!("prepare {number}"))?;
    }
    history.keep();
    for spread in [1, 7, 100, 5_000] {
        (0..MOST_OPEN).for_each(|slot| {
            let number = (slot as u32).wrapping_mul(2_654_435_761) % spread;
            history.put(Buffer::Open, slot * RECORD + 136, &number.to_be_bytes());
        });
        for (list, number) in [(4 * MOST_OPEN - 1, 16), (4 * MOST_OPEN, 0)] {
            let outcome = history.call(group, tally, Lengths { list, ..lengths }, time(60))?;
            group.same(outcome.answer.number, number, || format!("list of {list} bytes"))?;
        }
        history.restore();
    }
    Ok(())
}

/// Finished records for all places but five, then the calls that fill them.
fn last_places(group: &mut Group, tally: &mut Tally) -> Result<(), Difference> {
    let lengths = Lengths::places(MOST_OPEN, MOST_FINISHED);
    let mut history = History::new(lengths);
    for line in [START, "JOIN a 100", "JOIN b 100"] {
        history.call(group, tally, lengths, Call::line(line))?;
    }
    let full = MOST_FINISHED - 5;
    let mut records = vec![0; full * RECORD];
    for (place, record) in records.chunks_mut(RECORD).enumerate() {
        let mut transfer = reserved(place + 1, 1);
        (transfer.state, transfer.ended_by) = if place % 2 == 0 { (4, 2) } else { (4, 3) };
        transfer.write(record);
    }
    history.put(Buffer::Finished, 0, &records);
    history.put(Buffer::Head, 16, &(full as u16).to_be_bytes());
    let prepares = (full + 1..=full + 6).map(|number| prepare(number, "0.5"));
    let ends = [fulfil(full + 1), abort(full + 2), fulfil(full), prepare(full, "0.0001"), time(59), time(60)];
    let after = [prepare(full + 9, "1"), fulfil(full + 1), abort(full + 2), fulfil(full + 5), time(60)];
    for call in prepares.chain(ends).chain(after) {
        history.call(group, tally, lengths, call)?;
    }
    Ok(())
}

/// Accounts a, b and so on with these positions, and open records with these amounts.
fn stated(history: &mut History, lengths: &Lengths, positions: &[i128], amounts: &[i128]) {
    let name = |at: usize| if at < 26 { vec![b'a' + at as u8] } else { vec![b'z', b'a' + (at - 26) as u8] };
    let account = |(at, position): (usize, &i128)| Account { name: name(at), cap: MOST_CAP, position: *position };
    let head = Head {
        time: START_TIME,
        currency: *b"XTS",
        accounts: positions.iter().enumerate().map(account).collect(),
        open_places: lengths.open / RECORD,
        finished_places: lengths.finished / RECORD,
        finished: 0,
    };
    let mut bytes = vec![0; HEAD];
    head.write(&mut bytes);
    history.put(Buffer::Head, 0, &bytes);
    let mut open = vec![0; lengths.open];
    for (at, (record, amount)) in open.chunks_mut(RECORD).zip(amounts).enumerate() {
        reserved(at + 1, *amount).write(record);
    }
    history.put(Buffer::Open, 0, &open);
}

/// As many amounts as are needed for the sum, the first ones as large as can be.
fn amounts_of(sum: i128) -> Vec<i128> {
    let largest = (sum / MOST_AMOUNT) as usize;
    let mut amounts = vec![MOST_AMOUNT; largest];
    amounts.push(sum - MOST_AMOUNT * largest as i128);
    amounts
}

/// Positions, amounts, and whether they are of the shape.
type Case = (Vec<i128>, Vec<i128>, bool);

/// Sums that come to the same in 64 bits, in units or in ten-thousandths, but are not the same.
fn wrapping_cases() -> Vec<Case> {
    let two = |power: u32| 2_i128.pow(power);
    let unit_sums = [two(63), two(64), two(64) + 5, two(65), two(69)];
    let mut cases: Vec<Case> = Vec::new();
    for sum in unit_sums.map(|units| units * UNIT).into_iter().chain([two(63), two(64), two(64) * 3, two(80)]) {
        cases.push((vec![0, 0, 0], amounts_of(sum), false));
        cases.push((vec![5 * UNIT, 0, 0], amounts_of(sum), false));
        cases.push((vec![-two(63) * UNIT, 0], amounts_of(sum), false));
    }
    let lowest = -two(63) * UNIT;
    cases.extend([(vec![lowest, lowest], vec![], false), (vec![lowest, lowest, 7], vec![7], false)]);
    let all = vec![MOST_AMOUNT; MOST_OPEN];
    let total = MOST_AMOUNT * MOST_OPEN as i128;
    let modulus = two(64) * UNIT;
    let wrapped = (total + modulus / 2).rem_euclid(modulus) - modulus / 2;
    cases.extend([(vec![wrapped.min(MOST_CAP), wrapped - wrapped.min(MOST_CAP)], all.clone(), false), (vec![0, 0], all, false)]);
    cases
}

/// Sums near the largest that a book of the shape can have, and one ten-thousandth beside them.
fn true_cases() -> Vec<Case> {
    let highest = vec![MOST_CAP; 32];
    let mut lowest = vec![MOST_CAP; 31];
    lowest.push(-31 * MOST_CAP);
    let parts = vec![9_999; 1_000];
    let beside = |positions: &[i128], more: i128| {
        let mut other = positions.to_vec();
        other[1] += more;
        other
    };
    let sum = |positions: &[i128]| amounts_of(positions.iter().sum());
    vec![
        (highest.clone(), sum(&highest), true),
        (beside(&highest, -1), sum(&highest), false),
        (beside(&highest, 1), sum(&highest), false),
        (beside(&highest, 1), amounts_of(32 * MOST_CAP + 1), false),
        (lowest.clone(), vec![], true),
        (lowest.clone(), vec![0, 0, 0], true),
        (lowest, vec![1], false),
        (vec![9_999 * 1_000, 0], parts.clone(), true),
        (vec![9_999 * 1_000 - UNIT, 0], parts.clone(), false),
        (vec![9_999 * 1_000 + 65_536, 0], parts.clone(), false),
        (vec![9_999 * 1_000 % 65_536, 0], parts, false),
        (vec![-5 * UNIT / 2, 5 * UNIT / 2], vec![], true),
    ]
}

fn sums(group: &mut Group, tally: &mut Tally) -> Result<(), Difference> {
    let lengths = Lengths::places(MOST_OPEN, MOST_OPEN);
    let mut history = History::new(lengths);
    history.call(group, tally, lengths, Call::line(START))?;
    history.keep();
    let probes = [Call::line("JOIN new 5"), prepare(2_000, "0.0001"), fulfil(1), abort(2), time(60), time(59)];
    for (positions, amounts, is_sound) in wrapping_cases().into_iter().chain(true_cases()) {
        for probe in &probes {
            stated(&mut history, &lengths, &positions, &amounts);
            let outcome = history.call(group, tally, lengths, probe.clone())?;
            let about = || format!("positions {positions:?}, {} amounts, {probe}", amounts.len());
            group.same(outcome.answer.number != 21, is_sound, about)?;
            history.restore();
        }
    }
    Ok(())
}
