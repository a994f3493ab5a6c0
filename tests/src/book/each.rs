//! One book with records of every kind, and every byte of it changed in turn; lengths and lists of every size.

use crate::history::History;
use crate::random::Random;
use crate::report::{Difference, Group, Report};
use crate::second::book::{HEAD, RECORD};
use crate::second::{condition, sha256};
use crate::tally::Tally;
use crate::world::{Buffer, Call, Kind, Lengths};

const OPEN: usize = 5;
const FINISHED: usize = 9;

/// The long name has 32 bytes, the longest there is.
const LONG: &str = "xxxxxxxxxxxxxxxxxxxxxxxxxxxxxxxx";

pub fn lengths() -> Lengths {
    Lengths { list: 4 * OPEN, ..Lengths::places(OPEN, FINISHED) }
}

fn id(number: usize) -> String {
    format!("00000000-0000-4000-8000-{number:012}")
}

const SECRET: [u8; 32] = [7; 32];

fn secret_text() -> String {
    String::from_utf8(condition::write(&SECRET, 43).expect("32 bytes")).expect("letters")
}

fn prepare(number: usize, amount: &str, seconds: usize) -> String {
    let condition = condition::write(&sha256::hash(&SECRET), 43).expect("32 bytes");
    let condition = String::from_utf8(condition).expect("letters");
    format!("PREPARE {} a {LONG} XTS {amount} {condition} 2024-01-01T00:00:{seconds:02}.000Z AQ", id(number))
}

/// Four accounts; slots 0, 2 and 3 taken, 1 and 4 free; finished by fulfilment, abort and expiry.
fn book_of_every_kind() -> Vec<String> {
    let mut lines = vec!["OPEN XTS 2024-01-01T00:00:00.000Z".to_string()];
    lines.extend(["JOIN a 1000.5", "JOIN ab 0", &format!("JOIN {LONG} 100000000000000000"), "JOIN z 7"].map(String::from));
    lines.extend([prepare(1, "0.0003", 30), prepare(2, "5.5", 40), prepare(3, "60.25", 50), prepare(4, "1", 2)]);
    lines.push(format!("FULFIL {LONG} {} {}", id(2), secret_text()));
    lines.push("TIME 2024-01-01T00:00:02.000Z".to_string());
    lines.extend([prepare(5, "2", 35), prepare(6, "0", 30)]);
    lines.push(format!("ABORT {LONG} {} 5100", id(5)));
    lines.push(prepare(7, "3", 30));
    lines.push(format!("ABORT {LONG} {} 5100", id(7)));
    lines
}

/// Calls that are accepted on that book, and calls that find their record in either of the books.
pub fn probes() -> Vec<Call> {
    let fulfil = |number: usize| format!("FULFIL {LONG} {} {}", id(number), secret_text());
    let abort = |number: usize| format!("ABORT {LONG} {} 5100", id(number));
    let lines = [
        prepare(9, "1.5", 30),
        "TIME 2024-01-01T00:00:30.000Z".to_string(),
        fulfil(3),
        abort(1),
        format!("LOOKUP {}", id(6)),
        "JOIN abc 5".to_string(),
        fulfil(2),
        abort(5),
        prepare(1, "0.0003", 30),
        prepare(5, "2", 35),
        abort(4),
        format!("LOOKUP {}", id(5)),
    ];
    lines.iter().map(|line| Call::line(line)).collect()
}

pub fn built(group: &mut Group, tally: &mut Tally) -> Result<History, Difference> {
    let mut history = History::new(lengths());
    for line in book_of_every_kind() {
        let outcome = history.call(group, tally, lengths(), Call::line(&line))?;
        group.same(outcome.answer.number, 0, || format!("{line} in the book of every kind"))?;
    }
    history.keep();
    Ok(history)
}

pub fn run(report: &mut Report, tally: &mut Tally) {
    report.group("each call before an open", |group| before_open(group, tally));
    report.group("each byte of the head changed", |group| each_byte(group, tally, Buffer::Head));
    report.group("each byte of the open book changed", |group| each_byte(group, tally, Buffer::Open));
    report.group("each byte of the finished book changed", |group| each_byte(group, tally, Buffer::Finished));
    report.group("each value of each number that the shape judges", |group| each_value(group, tally));
    report.group("each pair of state and ended-by", |group| each_ending(group, tally));
    report.group("each length of head and books", |group| each_length(group, tally));
    report.group("each number of places, noted as it is lent", |group| each_number_of_places(group, tally));
    report.group("each length of the time list", |group| each_list(group, tally));
}

/// Buffers of zeros, of one other byte, or as they were found are no book.
fn before_open(group: &mut Group, tally: &mut Tally) -> Result<(), Difference> {
    let mut history = History::new(lengths());
    history.keep();
    for filled in [None, Some(0), Some(1), Some(0xff)] {
        for probe in probes() {
            for buffer in [Buffer::Head, Buffer::Open, Buffer::Finished] {
                if let Some(byte) = filled {
                    history.put(buffer, 0, &vec![byte; lengths().of(buffer)]);
                }
            }
            let outcome = history.call(group, tally, lengths(), probe.clone())?;
            group.same(outcome.answer.number, 21, || format!("{probe} on buffers of {filled:?}"))?;
            history.restore();
        }
    }
    Ok(())
}

/// The byte put there, each probe, and the sound book again.
fn probed(
    group: &mut Group,
    tally: &mut Tally,
    history: &mut History,
    (buffer, at, bytes): (Buffer, usize, &[u8]),
    probes: &[Call],
) -> Result<(), Difference> {
    probes.iter().try_for_each(|probe| {
        history.put(buffer, at, bytes);
        history.call(group, tally, lengths(), probe.clone())?;
        history.restore();
        Ok(())
    })
}

fn each_byte(group: &mut Group, tally: &mut Tally, buffer: Buffer) -> Result<(), Difference> {
    let mut random = Random::named("each byte");
    let mut history = built(group, tally)?;
    let probes = probes();
    for at in 0..lengths().of(buffer) {
        let byte = history.world().bytes(buffer)[at];
        let other = [byte ^ 1, byte ^ 0x80, byte.wrapping_add(1), byte.wrapping_sub(1), 0, 0xff, random.byte()];
        // Account places that are not in use are many and alike.
        let is_unused = buffer == Buffer::Head && at >= 32 + 4 * 64;
        let some = if is_unused { &probes[..1] } else { &probes[..] };
        other.iter().try_for_each(|byte| probed(group, tally, &mut history, (buffer, at, &[*byte]), some))?;
    }
    Ok(())
}

/// State, parties and ended-by of every record; of the head the counts and the lengths of the names.
fn each_value(group: &mut Group, tally: &mut Tally) -> Result<(), Difference> {
    let mut history = built(group, tally)?;
    let probes = &probes()[..4];
    let in_head = (11..18).chain([31]).chain((0..5).flat_map(|account| [32 + 64 * account + 52, 32 + 64 * account + 49]));
    let in_books = |places: usize| (0..places).flat_map(|place| (16..24).map(move |at| place * RECORD + at));
    let places = in_head.map(|at| (Buffer::Head, at));
    let places = places.chain(in_books(OPEN).map(|at| (Buffer::Open, at)));
    let places: Vec<(Buffer, usize)> = places.chain(in_books(5).map(|at| (Buffer::Finished, at))).collect();
    for (buffer, at) in places {
        (0..=255).try_for_each(|byte| probed(group, tally, &mut history, (buffer, at, &[byte]), probes))?;
    }
    Ok(())
}

fn each_ending(group: &mut Group, tally: &mut Tally) -> Result<(), Difference> {
    let mut history = built(group, tally)?;
    let probes = probes();
    for (state, ended_by) in (0..7).flat_map(|state| (0..7).map(move |ended_by| (state, ended_by))) {
        for (buffer, place) in [(Buffer::Open, 0), (Buffer::Open, 2), (Buffer::Finished, 0), (Buffer::Finished, 2)] {
            let start = place * RECORD;
            let parties = &history.world().bytes(buffer)[start + 17..start + 19];
            let four = [state, parties[0], parties[1], ended_by];
            probed(group, tally, &mut history, (buffer, start + 16, &four), &probes)?;
        }
    }
    Ok(())
}

/// Each buffer alone and two of them together: none, one byte, a byte or a record more or less. The byte that is
/// too many is zero, as the end of a book or head that is not in use.
fn each_length(group: &mut Group, tally: &mut Tally) -> Result<(), Difference> {
    let mut history = built(group, tally)?;
    for buffer in [Buffer::Head, Buffer::Open, Buffer::Finished] {
        history.put(buffer, lengths().of(buffer), &[0]);
    }
    history.keep();
    let opening = Call::line("OPEN XTS 2024-01-01T00:00:00.000Z");
    let not_in_form = Call::new(Kind::Open, &[b"XT", b"2024-01-01T00:00:00.000Z"]);
    let probes: Vec<Call> = probes().into_iter().chain([opening, not_in_form]).collect();
    let near = |length: usize| [0, 1, 159, 160, 161, length - RECORD, length - 1, length, length + 1];
    for open in near(OPEN * RECORD) {
        for finished in near(FINISHED * RECORD) {
            for head in [0, 1, HEAD / 2, HEAD - 1, HEAD, HEAD + 1] {
                for probe in &probes {
                    history.call(group, tally, Lengths { head, open, finished, ..lengths() }, probe.clone())?;
                    history.restore();
                }
            }
        }
    }
    Ok(())
}

/// Books that end sooner than the head said at opening, and a head that says so: some are of the shape. The four
/// finished records and the open ones need as many places; the last of these, in slot 3, has amount 0, so that
/// the sum holds without it.
fn each_number_of_places(group: &mut Group, tally: &mut Tally) -> Result<(), Difference> {
    let mut history = built(group, tally)?;
    for (open, finished) in (0..=OPEN).flat_map(|open| (0..=FINISHED).map(move |finished| (open, finished))) {
        let noted = [0, open as u8, 0, finished as u8];
        for probe in probes() {
            history.put(Buffer::Head, 12, &noted);
            let lent = Lengths { list: lengths().list, ..Lengths::places(open, finished) };
            let outcome = history.call(group, tally, lent, probe.clone())?;
            let is_sound = open >= 4 && finished >= 7 || open == 3 && finished >= 6;
            group.same(outcome.answer.number != 21, is_sound, || format!("{probe}, open {open}, finished {finished}"))?;
            history.restore();
        }
    }
    Ok(())
}

/// Two records are due at second 30, three at second 50; "a shorter rest is none".
fn each_list(group: &mut Group, tally: &mut Tally) -> Result<(), Difference> {
    let mut history = built(group, tally)?;
    for instant in ["02.000", "29.999", "30.000", "49.999", "50.000", "01.999"] {
        let call = Call::line(&format!("TIME 2024-01-01T00:00:{instant}Z"));
        for list in 0..=4 * OPEN {
            history.call(group, tally, Lengths { list, ..lengths() }, call.clone())?;
            history.restore();
        }
    }
    Ok(())
}
